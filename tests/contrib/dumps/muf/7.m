: greet ( s -- ) "Hello, " swap strcat me @ swap notify ;
public greet
$libdef greet
