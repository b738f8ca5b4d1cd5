# A note that a test drives: wish driven.tcl HOW NOTES FOLDER NUMBER. It runs notes.tcl and then, for each line of
# standard input, the script that the line has in base64; the reply is a line of `ok` or `error`, and the result so.
# With `stepped` for HOW nothing happens by the clock: the test calls what would.

set argv [lassign $argv how notes]
if {$how eq "stepped"} {
    rename after real_after
    proc after {first args} {
        if {[lindex $args end] ni {save pause watch}} {
            tailcall real_after $first {*}$args
        }
    }
    # no file counts as one that may change without a sign
    proc clock {args} {
        return 1000000000000
    }
}
source $notes
wm geometry . 470x330+[expr {[lindex $argv 1] % 2 ? 0 : 476}]+0

# The widget itself, behind the command that stands in its place.
interp alias {} real {} ::mirror::real.page

# Presses keys, as `a`, `Return`, `Shift-Right` or `Control-b`.
proc press {keys} {
    focus -force .page
    update
    foreach key $keys {
        set at [string last - $key]
        event generate .page <[string range $key 0 $at]Key-[string range $key $at+1 end]>
    }
    update
}

# Clicks at a part of the window's width and height.
proc click {x y} {
    set where [list -x [expr {int($x * [winfo width .page])}] -y [expr {int($y * [winfo height .page])}]]
    event generate .page <Button-1> {*}$where
    event generate .page <ButtonRelease-1> {*}$where
}

proc paste {text} {
    clipboard clear
    clipboard append $text
    event generate .page <<Paste>>
    update
}

# The text that a widget or a site shows, and the ranges of each tag that a character has.
proc shown_by {asked} {
    set tags {}
    foreach tag [lsort [{*}$asked tag names]] {
        set ranges [{*}$asked tag ranges $tag]
        if {$tag ne "sel" && [llength $ranges]} {
            lappend tags $tag $ranges
        }
    }
    return $tags
}

proc shown {} {
    return [list [real get 1.0 end] [shown_by real]]
}

proc kept {} {
    return [list [lindex [note do .t get 1.0 end] 0] [shown_by {note do .t}]]
}

# Looks at the folder as if a file had changed, and answers what the site told of that one, which alone is new: fresh,
# repeats, held and fault.
proc look_anew {name} {
    set ::told {fresh 0 repeats 0 held 0 fault 0}
    unset -nocomplain ::seen($name)
    look
    return [lmap key {fresh repeats held fault} {dict get $::told $key}]
}

proc answer {} {
    if {[gets stdin line] < 0} {
        if {[eof stdin]} {
            exit
        }
        return
    }
    set script [encoding convertfrom utf-8 [binary decode base64 $line]]
    set status [expr {[catch {uplevel #0 $script} result] ? "error" : "ok"}]
    if {$status eq "error" || [llength $::errors]} {
        set status error
        set result [expr {[llength $::errors] ? [lindex $::errors 0] : $::errorInfo}]
    }
    puts "$status [binary encode base64 [encoding convertto utf-8 $result]]"
    flush stdout
}

# Errors of what was run by an event or by the clock.
set errors {}

proc bgerror {why} {
    lappend ::errors $::errorInfo
}

# What the site tells of each file is kept for `look_anew`. The changes that it tells are counted by their kinds, where
# `tagged` are insertions under tags.
array set told_changes {insert 0 tagged 0 delete 0 tag 0 untag 0}
rename note site
proc note {first args} {
    set result [uplevel 1 [list ::site $first {*}$args]]
    if {$first eq "receive"} {
        set ::told $result
    } elseif {$first eq "changes"} {
        foreach change $result {
            set kind [lindex $change 0]
            incr ::told_changes([expr {$kind eq "insert" && [llength $change] > 3 ? "tagged" : $kind}])
        }
    }
    return $result
}

# How often the text was drawn anew.
set draws 0
rename mirror::draw mirror::drawn
proc mirror::draw {window} {
    incr ::draws
    drawn $window
}

fconfigure stdin -blocking 0 -translation lf
fconfigure stdout -translation lf
fileevent stdin readable answer
