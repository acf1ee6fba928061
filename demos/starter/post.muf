( page and mail.
    page NAME=TEXT    page NAME NAME=TEXT    page =TEXT [to those of last time]    page NAME=:waves
    mail    mail NAME NAME=TEXT    mail read N    mail erase N    mail erase all
  The letters of a player are properties of it below .mail, which other players can't read. The program has level 3, since it writes on others. )
$include $lib/common

$def MOST-LETTERS 50
: names ( list -- s ) 0 array_make swap foreach swap pop name swap []<- repeat ", " array_join ;
: players[ text -- list ] ( who is named, each once; who isn't known is told )
  0 array_make var! found
  text @ " " "," subst sms strip dup if " " explode_array else pop 0 array_make then
  foreach swap pop
    dup pmatch dup ok? if
      swap pop found @ over array_findval array_count if pop else found @ []<- found ! then
    else pop "There is no player '" swap strcat "'." strcat tell then
  repeat found @ ;

: posed ( text -- text: what stands behind the colon, as pose shows it )
  1 strcut swap pop dup "'" instr 1 = not if " " swap strcat then ;
: quoted ( text -- text ) ", \"" swap strcat "\"" strcat ;
: for-them[ text list -- s ]
  list @ array_count 1 > if " to " list @ names strcat else "" then var! to
  text @ ":" instr 1 = if "From afar" to @ strcat ", " strcat me @ name strcat text @ posed strcat exit then
  me @ name " pages" strcat text @ quoted strcat to @ dup if "." strcat then strcat ;
: for-me[ text list -- s ]
  text @ ":" instr 1 = if "From afar to " list @ names strcat ", " strcat me @ name strcat text @ posed strcat exit then
  "You page" text @ quoted strcat " to " strcat list @ names strcat "." strcat ;
: awake-ones[ list -- list ] ( who sleeps is told )
  0 array_make var! found
  list @ foreach swap pop
    dup awake? if found @ []<- found ! else name dup " isn't connected. mail " strcat swap strcat "=TEXT leaves a letter." strcat tell then
  repeat found @ ;
: last-ones ( -- text ) me @ "_page/last" getpropstr ;
: page[ whom text -- ]
  text @ strip not if "What do you want to say? page NAME=TEXT" tell exit then
  whom @ strip not if last-ones whom ! whom @ not if "You have paged nobody yet. page NAME=TEXT" tell exit then then
  whom @ players awake-ones var! list
  list @ array_count not if exit then
  me @ "_page/last" 0 array_make list @ foreach swap pop name swap []<- repeat " " array_join 4000 strcut pop setprop
  text @ list @ for-them var! line
  list @ foreach swap pop line @ notify repeat
  text @ list @ for-me tell ;

: place ( n -- path ) 4 zero ".mail/box/" swap strcat "/" strcat ;
: letters[ d -- list ] ( the numbers of its letters )
  0 array_make var! found
  d @ ".mail/box/" nextprop begin dup while
    dup "/" rsplit swap pop atoi found @ []<- found !
    d @ swap nextprop
  repeat pop found @ ;
: add-letter[ text d -- i ] ( 0 where there is no room )
  d @ letters array_count MOST-LETTERS >= if 0 exit then
  d @ ".mail/next" getpropval 1 + 1 over over < if swap then pop var! n
  d @ ".mail/next" n @ setprop
  d @ n @ place "from" strcat me @ name setprop
  d @ n @ place "when" strcat systime intostr setprop
  d @ n @ place "text" strcat text @ setprop
  d @ ".mail/new" over over getpropval 1 + setprop 1 ;
: leave[ text d -- i ] ( a letter more; in preempt, so that none takes the number of another )
  mode var! before preempt text @ d @ add-letter before @ setmode
  dup not if "The box of " d @ name strcat " is full." strcat tell exit then
  d @ awake? if d @ "You have a new letter from " me @ name strcat ". Type: mail" strcat notify then ;
: send[ whom text -- ]
  text @ strip not if "What do you want to write? mail NAME=TEXT" tell exit then
  0 array_make whom @ players foreach swap pop dup text @ strip swap leave if swap []<- else pop then repeat
  dup array_count if "Sent to " swap names strcat "." strcat tell else pop then ;
: when ( path -- s ) me @ swap "when" strcat getpropstr atoi "%Y-%m-%d %H:%M" swap timefmt ;
: part-of ( path what -- s ) strcat me @ swap getpropstr ;
: list-mail
  me @ ".mail/new" remove_prop
  me @ letters dup array_count not if pop "You have no mail." tell exit then
  "  No  From          When (UTC)        Text" tell
  foreach swap pop
    dup intostr 4 strright "  " strcat swap place
    swap over "from" part-of 12 pad strcat "  " strcat
    over when strcat "  " strcat
    swap "text" part-of 36 pad strcat striptail tell
  repeat ;
: known ( text -- n, or 0: and then it is told )
  strip atoi dup 0 > if dup place "from" part-of if exit then then
  pop "You have no such letter. mail lists them." tell 0 ;
: read-mail ( text -- )
  known dup not if pop exit then place
  "From " over "from" part-of strcat ", " strcat over when strcat " UTC:" strcat tell
  "text" part-of tell ;
: drop-letter ( n -- ) place { "from" "when" "text" }list foreach swap pop over swap strcat me @ swap remove_prop repeat pop ;
: tidy me @ letters array_count not if me @ ".mail/next" remove_prop me @ ".mail/new" remove_prop then ;
: erase-mail ( text -- )
  strip dup "all" stringcmp not if
    pop me @ letters dup foreach swap pop drop-letter repeat array_count intostr " erased." strcat tell tidy exit
  then
  known dup not if pop exit then drop-letter "Erased." tell tidy ;
: mail ( text -- )
  dup "=" instr if "=" split send exit then
  strip dup not if pop list-mail exit then
  dup "read " stringpfx if 5 strcut swap pop read-mail exit then
  dup "erase " stringpfx if 6 strcut swap pop erase-mail exit then
  pop "mail, mail NAME=TEXT, mail read N, mail erase N, or mail erase all." tell ;
: main
  "me" match me ! ( a program that calls this one may have put another there )
  " " "\r" subst
  trig exit? if trig name "mail" stringpfx if mail exit then then
  dup "=" instr not if pop "page NAME=TEXT, page NAME NAME=TEXT, or page =TEXT to those of last time." tell exit then
  "=" split page
;
