( cmd-hello ( by nobody ) )
$author nobody
$include $lib/greet
$include $lib/strings
: main[ str:args -- ]
	args @ strip greet .tell 1.5 pop bye
;
