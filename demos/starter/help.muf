( help: shows texts that stand on this program as lists of lines, one list for each topic. Who controls the program writes another so:
    @set #N=_help/cooking#/1:Bread is baked in the oven.
    @set #N=_help/cooking#/2:Soup isn't.
  A property _text/invalid object with the value 46 says that topic 46 tells of this text.
  `help`, `help TOPIC`, the beginning of a topic, or a line that holds one, as `help Permission denied [P15].` )
$include $lib/common

: tell-all ( lines -- ) foreach swap pop tell repeat ;
: text-of ( topic -- lines, and none where there is no such topic or it can't be a path )
  "_help/" swap strcat 1 try prog swap array_get_proplist catch pop 0 array_make endcatch ;
: property ( path -- s, which is empty where it can't be a path )
  1 try prog swap getpropstr catch pop "" endcatch ;
: is-number ( topic -- i, whether it is a rule or an error )
  dup "p" stringpfx over strlen 1 > and if 1 strcut swap pop then number? ;
: topics[ -- list ] ( all but the numbers )
  0 array_make var! found
  prog "_help/" nextprop begin dup while
    dup 6 strcut swap pop "#" rsplit pop
    dup is-number if pop else found @ []<- found ! then
    prog swap nextprop
  repeat pop found @ ;
: beginning[ word -- list ] ( the topics that begin so )
  0 array_make var! found
  topics foreach swap pop
    dup word @ stringpfx if found @ []<- found ! else pop then
  repeat found @ ;
: bare ( line -- line, without what stands around words )
  " " "(" subst " " ")" subst " " "." subst " " "," subst " " ":" subst sms strip ;
: of-text ( line -- lines, of the text of an error, behind the last colon )
  ": " rsplit dup if swap then pop bare "_text/" swap strcat property text-of ;
: in-line[ line -- lines ] ( of the first word that is a topic )
  0 array_make var! found
  line @ bare " " explode_array foreach swap pop
    text-of dup array_count if found ! break else pop then
  repeat found @ ;
: none ( topic -- )
  "There is no help on '" swap strcat "'. There is on: " strcat topics ", " array_join strcat ". help numbers lists rules and errors." strcat tell ;
: main
  "me" match me ! ( a program that calls this one may have put another there )
  strip tolower 60 strcut pop strip
  dup not if pop "index" then
  dup text-of dup array_count if swap pop tell-all exit then pop
  dup of-text dup array_count if swap pop tell-all exit then pop
  dup in-line dup array_count if swap pop tell-all exit then pop
  dup beginning dup array_count 1 = if swap pop 0 [] text-of tell-all exit then
  dup array_count if swap pop "Which of these: " swap ", " array_join strcat "?" strcat tell exit then pop
  none
;
