( chan and pub: a channel for talk, wherever one is.   chan on   chan off   chan who   chan last   pub TEXT   pub :waves
  Who listens has the property _chan/on; the last lines stand on this program. )
$include $lib/common

$def MOST-LINES 10
: listens? ( d -- i ) "_chan/on" getpropval ;
: listeners[ -- list ] ( who is on and listens, each once )
  0 array_make var! found
  online_array 0 array_make array_union foreach swap pop dup listens? if found @ []<- found ! else pop then repeat
  found @ ;
: keep[ line -- ] ( in preempt, so that no line is lost )
  mode preempt
  line @ prog "_last" array_get_proplist []<-
  dup array_count MOST-LINES > if 0 array_delitem then
  prog swap "_last" swap array_put_proplist
  setmode ;
: to-all[ line -- ] listeners foreach swap pop line @ notify repeat line @ keep ;
: tagged ( text -- line ) "[chan] " me @ name strcat swap strcat ;
: say[ text -- ]
  me @ listens? not if "You don't listen. Type: chan on" tell exit then
  text @ strip text !
  text @ not if "pub TEXT, or pub :waves." tell exit then
  text @ ":" instr 1 = if
    text @ 1 strcut swap pop dup "'" instr 1 = not if " " swap strcat then
  else " says, \"" text @ strcat "\"" strcat then
  tagged to-all ;
: on
  me @ listens? if "You listen already." tell exit then
  me @ "_chan/on" 1 setprop " listens." tagged to-all ;
: off
  me @ listens? not if "You don't listen." tell exit then
  " listens no more." tagged to-all me @ "_chan/on" remove_prop ;
: who
  listeners 0 array_make swap foreach swap pop name swap []<- repeat
  dup array_count if ", " array_join else pop "nobody" then "Listening: " swap strcat tell ;
: last prog "_last" array_get_proplist dup array_count if foreach swap pop tell repeat else pop "Nothing was said yet." tell then ;
: main
  "me" match me ! ( a program that calls this one may have put another there )
  " " "\r" subst
  trig exit? if trig name "pub" stringpfx if say exit then then
  strip tolower
  dup "on" strcmp not if pop on exit then
  dup "off" strcmp not if pop off exit then
  dup "who" strcmp not if pop who exit then
  dup "last" strcmp not if pop last exit then
  pop "chan on, chan off, chan who, chan last; pub TEXT, or pub :waves." tell
;
