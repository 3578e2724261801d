set t [thread::create]
thread::send -async $t {puts a}
thread::send -async -head $t {puts b}
