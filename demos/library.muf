( lib-common: words that Fuzzball has and this server hasn't. A program takes them by $include #N, or by $include $lib/common where contrib/put types it in.
  What stands behind $libdef is a word of this program that is called: it reads and changes nothing but the stack. What reaches the world stands behind $pubdef, as words that
  are written into the program that uses them: so that acts by its own level, and this library, which has level 3 and flag L, lends nobody a right. )

( Texts )
: spaces[ n -- s ] " " begin dup strlen n @ < while dup strcat repeat n @ 0 > if n @ strcut pop else pop "" then ;
: strleft[ s n -- t ] s @ n @ s @ strlen - spaces strcat ;
: strright[ s n -- t ] n @ s @ strlen - spaces s @ strcat ;
: strcenter[ s n -- t ] n @ s @ strlen - 2 / spaces s @ strcat n @ strleft ;
: pad[ s n -- t ] s @ n @ strcut pop n @ strleft ;
: zero[ i n -- s ] i @ intostr begin dup strlen n @ < while "0" swap strcat repeat ;
: sms ( s -- s ) begin dup "  " instr while " " "  " subst repeat ;
: stringpfx[ s p -- i ] p @ not if 1 else s @ p @ instring 1 = then ;
: number? ( s -- i )
  dup string? not if pop 0 exit then
  striplead striptail dup "-" instr 1 = over "+" instr 1 = or if 1 strcut swap pop then
  dup not if pop 0 exit then
  begin dup while
    1 strcut swap ctoi dup 48 < swap 57 > or if pop 0 exit then
  repeat pop 1 ;
: stod ( s -- d ) striplead striptail dup "#" instr 1 = if 1 strcut swap pop then dup number? if atoi dbref else pop #-1 then ;
: explode_array[ s t -- a ]
  0 array_make var! found
  begin s @ t @ instr while s @ t @ split s ! found @ array_appenditem found ! repeat
  s @ found @ array_appenditem ;

( Lists )
: alike[ x y -- i ]
  x @ string? y @ string? and if x @ y @ strcmp not exit then
  x @ int? y @ int? and if x @ y @ = exit then
  x @ dbref? y @ dbref? and if x @ y @ = exit then 0 ;
: lreverse ( x*n n -- x*n n ) dup var! n reverse n @ ;
: array_reverse[ a -- a ]
  0 array_make var! found
  a @ array_count 1 - 0 -1 for a @ swap array_getitem found @ array_appenditem found ! repeat found @ ;
: array_getrange[ a first last -- a ]
  0 array_make var! found
  a @ foreach swap dup first @ >= swap last @ <= and if found @ array_appenditem found ! else pop then repeat found @ ;
: array_delrange[ a first last -- a ]
  0 array_make var! found
  a @ foreach swap dup first @ < swap last @ > or if found @ array_appenditem found ! else pop then repeat found @ ;
: array_findval[ a x -- keys ]
  0 array_make var! found
  a @ foreach x @ alike if found @ array_appenditem found ! else pop then repeat found @ ;
: array_excludeval[ a x -- keys ]
  0 array_make var! found
  a @ foreach x @ alike if pop else found @ array_appenditem found ! then repeat found @ ;
: array_last ( a -- k 1, or 0 0 )
  0 0 rot foreach pop rot rot pop pop 1 repeat ;
: as-key ( x -- k ) dup dbref? if int intostr "\r" swap strcat then ;
: in-order[ a type -- groups ] ( what is sorted at rising keys, alike ones in a list )
  0 array_make_dict var! groups
  a @ foreach swap pop var! item
    type @ 4 = if random else
      item @ dup dbref? if int then
      dup string? type @ 1 bitand and if dup tolower "\r" strcat swap strcat then
    then var! key
    item @ groups @ key @ array_getitem dup not if pop 0 array_make then array_appenditem
    groups @ key @ array_setitem groups !
  repeat groups @ ;
: array_sort[ a type -- a ] ( 0 with regard to case, 1 without; 2 and 3 the same downward; 4 shuffles )
  0 array_make var! found
  a @ type @ in-order foreach swap pop foreach swap pop found @ array_appenditem found ! repeat repeat
  found @ type @ 4 < type @ 2 bitand and if array_reverse then ;
: keyed[ a -- dict ] 0 array_make_dict var! found a @ foreach swap pop dup found @ rot as-key array_setitem found ! repeat found @ ;
: values[ dict -- a ] 0 array_make var! found dict @ foreach swap pop found @ array_appenditem found ! repeat found @ ;
: array_union[ a b -- c ] a @ keyed var! all b @ foreach swap pop dup all @ rot as-key array_setitem all ! repeat all @ values ;
: array_diff[ a b -- c ] a @ keyed var! all b @ foreach swap pop all @ swap as-key array_delitem all ! repeat all @ values ;
: array_intersect[ a b -- c ] a @ a @ b @ array_diff array_diff ;

( Lists of objects that a property keeps, as texts: #1 #5 )
: ref-text ( d -- s ) int intostr "#" swap strcat ;
: ref-without[ s d -- s ] " " s @ strcat " " strcat " " " " d @ ref-text strcat " " strcat subst striplead striptail ;
: ref-with[ s d -- s ] s @ d @ ref-without dup if " " strcat then d @ ref-text strcat ;
: ref-place[ s d -- i ]
  0 s @ " " explode_array foreach d @ ref-text strcmp if pop else swap pop 1 + break then repeat ;

( Times, in UTC )
: timesplit[ t -- second minute hour day month year weekday yearday ]
  t @ 86400 / t @ 86400 % 0 < if 1 - then var! days
  t @ days @ 86400 * - var! rest
  rest @ 60 % rest @ 3600 % 60 / rest @ 3600 /
  days @ 719468 + 146097 / var! age
  days @ 719468 + age @ 146097 * - var! left
  left @ left @ 1460 / - left @ 36524 / + left @ 146096 / - 365 / var! years
  left @ years @ 365 * - years @ 4 / - years @ 100 / + var! march
  march @ 5 * 2 + 153 / var! months
  march @ months @ 153 * 2 + 5 / - 1 +
  months @ 10 < if months @ 3 + else months @ 9 - then dup var! month
  years @ age @ 400 * + month @ 3 < if 1 + then dup var! year
  days @ 4 + 7 % dup 0 < if 7 + then 1 +
  year @ 4 % not year @ 100 % and year @ 400 % not or var! leap
  month @ 3 < if march @ 305 - else march @ 60 + leap @ if 1 + then then ;
: clock-parts[ t -- a ] { t @ timesplit } array_make ;
: part ( a i -- i ) array_getitem ;
: word-of[ i words -- s ] words @ " " explode_array i @ array_getitem ;
: weekday ( i -- s ) 1 - "Sunday Monday Tuesday Wednesday Thursday Friday Saturday" word-of ;
: month-name ( i -- s ) 1 - "January February March April May June July August September October November December" word-of ;
: field[ c a -- s ] ( what stands for a letter behind a percent sign )
  a @ 2 part 11 + 12 % 1 + var! hour
  c @ "Y" strcmp not if a @ 5 part intostr exit then
  c @ "y" strcmp not if a @ 5 part 100 % 2 zero exit then
  c @ "m" strcmp not if a @ 4 part 2 zero exit then
  c @ "d" strcmp not if a @ 3 part 2 zero exit then
  c @ "e" strcmp not if a @ 3 part intostr 2 strright exit then
  c @ "H" strcmp not if a @ 2 part 2 zero exit then
  c @ "I" strcmp not if hour @ 2 zero exit then
  c @ "l" strcmp not if hour @ intostr 2 strright exit then
  c @ "p" strcmp not if a @ 2 part 12 < if "AM" else "PM" then exit then
  c @ "M" strcmp not if a @ 1 part 2 zero exit then
  c @ "S" strcmp not if a @ 0 part 2 zero exit then
  c @ "j" strcmp not if a @ 7 part 3 zero exit then
  c @ "A" strcmp not if a @ 6 part weekday exit then
  c @ "a" strcmp not if a @ 6 part weekday 3 strcut pop exit then
  c @ "B" strcmp not if a @ 4 part month-name exit then
  c @ "b" strcmp not if a @ 4 part month-name 3 strcut pop exit then
  c @ "Z" strcmp not if "UTC" exit then
  c @ "%" strcmp not if "%" exit then
  "%" c @ strcat ;
: whole-fields ( s -- s ) "%m/%d/%y" "%D" subst "%Y-%m-%d" "%F" subst "%H:%M:%S" "%T" subst "%H:%M" "%R" subst "%a %b %e %T %Y" "%c" subst "%H:%M:%S" "%T" subst ;
: timefmt[ s t -- s ]
  t @ clock-parts var! a
  "" var! made
  s @ whole-fields s !
  begin s @ "%" instr while
    s @ "%" split 1 strcut s ! a @ field strcat made @ swap strcat made !
  repeat made @ s @ strcat ;
: date-of[ t -- day month year ] t @ clock-parts var! a a @ 3 part a @ 4 part a @ 5 part ;
: time-of[ t -- second minute hour ] t @ clock-parts var! a a @ 0 part a @ 1 part a @ 2 part ;
: span[ i -- s ] ( seconds as 45s, 12m, 3h, 2d )
  i @ 60 < if i @ intostr "s" strcat exit then
  i @ 3600 < if i @ 60 / intostr "m" strcat exit then
  i @ 86400 < if i @ 3600 / intostr "h" strcat exit then
  i @ 86400 / intostr "d" strcat ;
public ref-with public ref-without public ref-place public date-of public time-of
public strleft public strright public strcenter public pad public zero public sms public stringpfx public number? public stod public explode_array
public lreverse public array_reverse public array_getrange public array_delrange public array_findval public array_excludeval public array_last public array_sort
public array_union public array_diff public array_intersect public timesplit public timefmt public span
: main pop me @ "This is a library: $include #" prog intostr strcat notify ;

$libdef strleft
$libdef strright
$libdef strcenter
$libdef pad
$libdef zero
$libdef sms
$libdef stringpfx
$libdef number?
$libdef stod
$libdef explode_array
$libdef lreverse
$libdef array_reverse
$libdef array_getrange
$libdef array_delrange
$libdef array_findval
$libdef array_excludeval
$libdef array_last
$libdef array_sort
$libdef array_union
$libdef array_diff
$libdef array_intersect
$libdef timesplit
$libdef timefmt
$libdef span
$libdef ref-with
$libdef ref-without
$libdef ref-place
$libdef date-of
$libdef time-of
$pubdef date systime date-of
$pubdef time systime time-of
$pubdef gmtoffset 0
$pubdef strip striplead striptail
$pubdef -rot rot rot
$pubdef pr_mode 0
$pubdef fg_mode 1
$pubdef bg_mode 2
$pubdef sorttype_case_ascend 0
$pubdef sorttype_nocase_ascend 1
$pubdef sorttype_case_descend 2
$pubdef sorttype_nocase_descend 3
$pubdef sorttype_shuffle 4
$pubdef [] array_getitem
$pubdef ->[] array_setitem
$pubdef []<- array_appenditem
$pubdef [..] array_getrange
$pubdef }list } array_make
$pubdef }array } array_make
$pubdef }dict } 2 / array_make_dict
$pubdef }join } array_make "" array_join
$pubdef }cat } array_make array_interpret
$pubdef }tell } array_make me @ 1 array_make array_notify
$pubdef array_interpret { swap foreach swap pop dup dbref? if name then repeat } array_make "" array_join
$pubdef array_notify foreach swap pop over foreach swap pop over swap notify repeat pop repeat pop
$pubdef array_get_proplist "#/" strcat { rot rot 1 begin 3 pick 3 pick 3 pick intostr strcat getpropstr dup while -4 rotate 1 + repeat pop pop pop pop } array_make
$pubdef array_put_proplist dup array_count 4 pick 4 pick "#" strcat rot setprop foreach 4 pick 4 pick "#/" strcat 4 pick 1 + intostr strcat rot setprop pop repeat pop pop
$pubdef contents_array contents { swap begin dup ok? while dup next repeat pop } array_make
$pubdef exits_array exits { swap begin dup ok? while dup next repeat pop } array_make
$pubdef online_array online array_make
$pubdef tell me @ swap notify
$pubdef otell loc @ me @ rot notify_except
$pubdef notify_except 1 swap notify_exclude
$pubdef truename name
$pubdef desc "_/de" getpropstr
$pubdef succ "_/sc" getpropstr
$pubdef osucc "_/osc" getpropstr
$pubdef fail "_/fl" getpropstr
$pubdef ofail "_/ofl" getpropstr
$pubdef drop "_/dr" getpropstr
$pubdef odrop "_/odr" getpropstr
$pubdef setdesc "_/de" swap setprop
$pubdef setsucc "_/sc" swap setprop
$pubdef setosucc "_/osc" swap setprop
$pubdef setfail "_/fl" swap setprop
$pubdef setofail "_/ofl" swap setprop
$pubdef setdrop "_/dr" swap setprop
$pubdef setodrop "_/odr" swap setprop
$pubdef locked? getlockstr dup "*UNLOCKED*" strcmp if parselock testlock not else pop pop 0 then
$pubdef parseprop pop 3 pick 3 pick getpropstr swap rot pop 0 parsempi
$pubdef reflist_add 3 pick 3 pick getpropstr swap ref-with setprop
$pubdef reflist_del 3 pick 3 pick getpropstr swap ref-without setprop
$pubdef reflist_find rot rot getpropstr swap ref-place
