( ex: shows of an object what its owner wants to know: its kind, place, link or home, lock, what is in it and on it, and its properties.
    ex NAME           ex alone is the place      ex NAME=PATH   only the properties at and below a path
  Of what the player doesn't control it shows what everybody may know: its name, kind and owner. )
$include $lib/common

: mine? ( d -- i ) me @ swap controls ;
: long ( d -- s: as the player sees it )
  dup #-3 dbcmp if pop "home" exit then
  dup ok? not if pop "nothing" exit then
  dup mine? if unparseobj else name then ;
: kind ( d -- s )
  dup room? if pop "room" exit then
  dup exit? if pop "exit" exit then
  dup player? if pop "player" exit then
  program? if "program" else "thing" then ;
: link-word ( d -- s: what its link is called )
  dup exit? if pop "Leads to: " exit then
  room? if "Drop-to: " else "Home: " then ;
: all[ list label -- ]
  list @ array_count not if exit then
  label @ tell list @ foreach swap pop "  " swap long strcat tell repeat ;
: value-text ( x -- s: as @set writes it, a number behind a ^; empty where there is none )
  dup string? if dup strlen 3900 > if 3900 strcut pop " .." strcat then exit then
  dup int? if dup if intostr "^" swap strcat else pop "" then exit then
  dup dbref? if intostr "#" swap strcat exit then
  dup lock? if unparselock else pop "?" then ;
: show-property[ d path -- ]
  d @ path @ getprop value-text
  dup if "  " path @ strcat ":" strcat swap strcat tell else pop then ;
: show-below[ d directory -- ]
  d @ directory @ nextprop begin dup while
    d @ over show-property
    d @ over propdir? if d @ over "/" strcat show-below then
    d @ swap nextprop
  repeat pop ;
: properties[ d path -- ]
  d @ "" nextprop not if "Properties: none" tell exit then
  "Properties:" tell
  path @ if d @ path @ show-property d @ path @ "/" strcat show-below else d @ "" show-below then ;
: refusal ( path -- s, why it can't be asked for; empty where it can )
  1 try prog over getprop pop pop "" catch dup "Invalid argument." strcmp not if pop "That can't be the path of a property." then endcatch ;
: show[ d path -- ]
  d @ long " (" strcat d @ kind strcat ") of " strcat d @ owner name strcat tell
  d @ mine? not if exit then
  path @ if path @ refusal dup if tell exit then pop d @ path @ properties exit then
  "Place: " d @ location long strcat tell
  d @ program? not if d @ link-word d @ getlink long strcat tell then
  "Lock: " d @ getlockstr strcat tell
  d @ contents_array "Contents:" all
  d @ exits_array "Exits:" all
  d @ "" properties ;
: trimmed ( s -- s: without spaces at its ends and slashes at its end )
  strip begin dup "/" rinstr over strlen = over and while dup strlen 1 - strcut pop repeat ;
: object ( s -- d, or #-1: and then it is told why )
  dup match
  dup #-3 dbcmp if pop pop me @ getlink exit then
  dup ok? if swap pop exit then
  #-2 dbcmp if "I don't know which '" swap strcat "' you mean!" strcat else "I don't understand '" swap strcat "'." strcat then tell #-1 ;
: main
  "me" match me ! ( a program that calls this one may have put another there )
  "=" split trimmed swap strip dup not if pop "here" then
  object dup ok? not if pop pop exit then
  swap show
;
