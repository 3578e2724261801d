set t [thread::create]
lassign [chan pipe] r w
puts $w hello
thread::transfer $t $r
puts "[catch {gets $r} e] $e"
puts [thread::send $t [list gets $r]]
