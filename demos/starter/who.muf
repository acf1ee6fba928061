( who: who is on, since when, and what each is doing.   who        doing TEXT        doing
  Nothing tells a program when a connection came, so a process in the background, the watch, looks each ten seconds at who is on, and keeps when it
  first saw each. It also tells who comes of new letters. `who` starts it where there is none; type `@run #N=` behind each start of the server, and it runs from then on.
  Its number is kept with a beat, since behind a restart the same number may be another's. )
$include $lib/common

$def ROUND 10
: since ( d -- path ) int intostr "_on/" swap strcat ;
: forget-all prog "_on/" nextprop begin dup while prog over nextprop swap prog swap remove_prop repeat pop ;
: forget-gone
  prog "_on/" nextprop begin dup while
    prog over nextprop swap
    dup "/" rsplit swap pop atoi dbref awake? if pop else prog swap remove_prop then
  repeat pop ;
: letters ( d -- : tells a player of letters that it hasn't seen )
  dup ".mail/new" getpropval dup 0 > if
    dup 1 = if pop "You have a new letter." else intostr "You have " swap strcat " new letters." strcat then " Type: mail" strcat notify
  else pop pop then ;
: came ( d -- )
  prog over since getpropstr if pop exit then
  prog over since systime intostr setprop
  letters ;
: players ( -- list: who is on, each once ) online_array 0 array_make array_union ;
: look-round forget-gone players foreach swap pop came repeat ;

: mine ( -- i ) prog "_watch/pid" getpropval pid = ;
: beat prog "_watch/beat" systime intostr setprop ;
: watch begin mine while beat look-round ROUND sleep repeat ;
: goes ( -- i )
  prog "_watch/pid" getpropval ispid?
  systime prog "_watch/beat" getpropstr atoi - dup 0 >= swap ROUND 3 * <= and and ;
: start-watch ( in preempt, so that two who come at once start one )
  mode preempt
  goes if setmode exit then
  forget-all
  0 try prog "_watch/pid" 0 prog "watch" queue setprop beat catch pop endcatch
  setmode ;

: since-text ( d -- s )
  prog swap since getpropstr dup if atoi systime swap - span else pop "0s" then ;
: line ( d -- s )
  dup name 18 pad "  " strcat
  over since-text 5 strright strcat "  " strcat
  swap "_doing" getpropstr " " "\r" subst 50 strcut pop strcat striptail ;
: listed
  start-watch look-round
  "Name                  On  Doing" tell
  0 array_make players foreach swap pop line swap []<- repeat
  sorttype_nocase_ascend array_sort dup foreach swap pop tell repeat
  array_count intostr " connected." strcat tell ;
: does ( text -- )
  me @ "_doing" 3 pick setprop
  if "Set." else "You are doing nothing that who tells of." then tell ;
: main
  "me" match me ! ( a program that calls this one may have put another there )
  command @ "Queued Event." strcmp not if pop watch exit then
  trig exit? if trig name "doing" stringpfx if strip does exit then then
  pop listed
;
