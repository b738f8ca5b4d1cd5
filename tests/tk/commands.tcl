# Tests the package's commands, without a window. The last line is 'N passed, M failed'.
package require peertext 1.0

set passed 0
set failed 0

proc check {name got want} {
    if {$got eq $want} {
        incr ::passed
    } else {
        incr ::failed
        puts "failed: $name\n  got  $got\n  want $want"
    }
}

# The result of a command is wanted.
proc gives {want args} {
    check $args [uplevel 1 $args] $want
}

# An error with a code is wanted.
proc refused {code args} {
    set status [catch {uplevel 1 $args} result options]
    check $args [list $status [expr {$status ? [dict get $options -errorcode] : $result}]] [list 1 $code]
}

# A line of `a`, and the changes that it makes.
proc changed {want args} {
    gives {} a do .t {*}$args
    check [list changes of {*}$args] [a changes] $want
}

proc words_and_changes {} {
    gives a peertext::site a 1
    changed {{insert 0 hello}} insert 1.0 hello
    set odd "line\n\ttab \"quoted\" back\\slash \{brace \$x \[y\] \r\0 caf\u00e9 \u20ac"
    changed [list [list insert 0 $odd]] insert 1.0 $odd
    gives [list $odd] a do .t get 1.0 "1.0 + [string length $odd] chars"
    gives {} a changes
    changed [list [list delete 0 [string length $odd]]] delete 1.0 "1.0 + [string length $odd] chars"
    changed {{tag bold 1 3}} tag add bold 1.1 1.3
    changed {{insert 2 x bold}} insert 1.2 x
    changed {{insert 0 y {b c} d}} insert 1.0 y {"b c" d}
    changed {{untag bold 2 5}} tag remove bold 1.0 end
    changed {{delete 1 3} {insert 1 HE}} replace 1.1 1.3 HE
    gives {text y 1.0} a do .t dump -text 1.0
    gives {1.3} a do .t index "1.0 + 3 chars"
    gives {} a do .t configure -undo 1
    gives {} a changes
    changed {{delete 0 2}} delete 1.0 1.2
    changed {{insert 0 y {b c} d} {insert 1 H}} edit undo
    changed {{delete 0 2}} edit redo
}

proc characters {} {
    set face "\ud83d\ude00"
    set shown [expr {[string length "\U0001f600"] == 1 ? "\U0001f600" : "\ufffd"}]
    changed [list [list insert 0 a${shown}b]] insert 1.0 a${face}b
    gives {1.2} a do .t search b 1.0
    gives {1.1} a do .t search $face 1.0
    refused {PEERTEXT 19 BadQuoting} a do .t insert 1.0 \ud83d
    gives {} a changes
    check "a character above U+FFFF is kept" [string match "*a\xf0\x9f\x98\x80b*" [a export]] 1
    changed [list [list insert 0 \0]] insert 1.0 \0
    check "a zero character is one byte" [string match "*\0\0\0\0\0" [a export]] 1
    changed {{delete 0 4}} delete 1.0 1.4
}

proc files {} {
    peertext::site b 2
    set file [a export]
    gives [a do .t get 1.0 end] eval {dict get [b receive [a export]] fault; b do .t get 1.0 end}
    set count [dict get [b receive $file] repeats]
    gives "fresh 0 repeats $count held 0 fault 0 offset 0" b receive $file
    gives {} b changes
    set cut [string range $file 0 end-1]
    gives "fresh 0 repeats [expr {$count - 1}] held 0 fault 32 offset" lrange [b receive $cut] 0 8
    gives {fresh 0 repeats 0 held 0 fault 30 offset 0} b receive "not one"
    gives [a ends] b ends
    gives RGATEXT1 a since [b ends]
    gives $file a since {}
    a do .t insert end "\nmore"
    set more [a since [b ends]]
    gives {fresh 1 repeats 0 held 0 fault 0 offset 0} b receive $more
    set place [expr {[string length [lindex [b do .t get 1.0 end] 0]] - 6}]
    b receive $more
    gives {} b changes
    a do .t edit undo
    b receive [a export]
    gives [list [list delete $place [expr {$place + 5}]]] b changes
    refused {PEERTEXT -5 BadBytes} b receive "caf\u20ac"
    refused {PEERTEXT -5 BadBytes} a since abc
    refused {PEERTEXT -5 BadBytes} a since \u1234
}

proc stamps {} {
    set stamp [a stamp .t 2]
    gives 2 a place .t $stamp
    gives 2 b place .t $stamp
    a do .t insert 1.0 abc
    gives 5 a place .t $stamp
    gives 2 b place .t $stamp
    refused {PEERTEXT -6 NotThere} a stamp .t 100000
    refused {PEERTEXT -6 NotThere} a stamp .t -1
    refused {PEERTEXT -6 NotThere} a stamp .none 0
    refused {PEERTEXT -6 NotThere} a place .t {1 70000}
    refused {PEERTEXT -6 NotThere} a place .t {123456 1}
    refused {PEERTEXT -6 NotThere} a place .t {1}
    refused {PEERTEXT -6 NotThere} a place .t {-1 1}
    refused {TCL VALUE NUMBER} a place .t {x 1}
    refused {TCL VALUE NUMBER} a stamp .t x
}

proc refusals {} {
    refused {PEERTEXT 4 BadCommand} a do .t frob
    refused {PEERTEXT 2 BadIndex} a do .t insert nowhere x
    refused {PEERTEXT 5 NoWidget} a do # insert
    refused {PEERTEXT 16 LastWidget} a do destroy .t
    refused {PEERTEXT 20 NoFile} a do receive 2.ops
    refused {PEERTEXT 19 BadQuoting} a do .t insert 1.0 [string repeat x 1048577]
    refused {PEERTEXT -3 IsHeld} peertext::site a 3
    refused {PEERTEXT -3 IsHeld} peertext::site set 3
    refused {PEERTEXT -4 BadNumber} peertext::site c 0
    refused {PEERTEXT -4 BadNumber} peertext::site c 4294967296
    refused {PEERTEXT -4 BadNumber} peertext::site c 4294967297
    refused {TCL VALUE NUMBER} peertext::site c x
    refused {TCL WRONGARGS} peertext::site c
    refused {TCL WRONGARGS} a
    refused {TCL WRONGARGS} a do
    refused {TCL WRONGARGS} a place .t
    refused {TCL WRONGARGS} a export all
    refused {TCL LOOKUP INDEX option exp} a exp
}

proc ends {} {
    gives {} a free
    gives {} info commands a
    peertext::site a 1
    gives "\n" lindex [a do .t get 1.0 end] 0
    rename a other
    gives {} other free
    rename b {}
    interp create inner
    inner eval [list set auto_path $::auto_path]
    inner eval {package require peertext; peertext::site a 1; a do .t insert 1.0 x}
    interp delete inner
}

# Every call, of a site of its own, refused ones too.
proc round {} {
    peertext::site c 3
    c do .t insert 1.0 [string repeat "some \\ text \u20ac " 20] {bold "a b"}
    c changes
    c do .t configure -undo 1
    c do .t delete 1.0 1.9
    c do .t edit undo
    c changes
    c do .t dump -all 1.0 end
    set stamp [c stamp .t 3]
    c place .t $stamp
    set file [c export]
    c since [c ends]
    c receive $file
    c receive [string range $file 0 end-2]
    foreach script {
        {c do .t frob} {c do .t insert 1.0 \ud83d} {c stamp .t 99999}
        {c place .t {9999 9}} {c place .t {x y}} {c place .t {1 2 3}} {c since abc}
        {c receive \u1234} {c frob} {c} {c do} {peertext::site c 4} {peertext::site d 0} {peertext::site d x}
    } {
        catch $script
    }
    c free
}

# The pages that the process has.
proc resident {} {
    set file [open /proc/self/statm]
    set pages [lindex [read $file] 1]
    close $file
    return $pages
}

# No memory is left behind by many rounds.
proc memory {} {
    for {set turn 0} {$turn < 500} {incr turn} {
        round
    }
    set before [resident]
    for {set turn 0} {$turn < 2000} {incr turn} {
        round
    }
    set more [expr {[resident] - $before}]
    check "2,000 rounds take no more memory ($more pages)" [expr {$more < 16}] 1
}

foreach part {words_and_changes characters files stamps refusals ends} {
    $part
}
# a checked build keeps freed memory for a while
if {$argv ne "checked"} {
    memory
} else {
    round
}
puts "$passed passed, $failed failed"
exit $failed
