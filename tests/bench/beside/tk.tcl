# Tk's text widget, which tests/bench.py `peers` runs beside the program: each line of the script is a Tcl command, and its
# answer is written as the program writes a reply. The widget is never shown, and no event is waited for.
wm withdraw .
text .t

proc spelled {word} {
    if {$word ne "" && ![regexp {[ \t\n\r"\\{}]} $word]} {
        return $word
    }
    return "\"[string map {\n \\n \t \\t \r \\r \" \\\" \\ \\\\} $word]\""
}

fconfigure stdin -encoding utf-8
fconfigure stdout -encoding utf-8 -buffering full
while {[gets stdin line] >= 0} {
    set answer [eval $line]
    if {[string match ".t get *" $line]} {
        puts "= [spelled $answer]"
    } elseif {$answer eq ""} {
        puts =
    } else {
        puts "= $answer"
    }
}
exit
