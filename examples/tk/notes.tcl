#!/usr/bin/env wish8.6
# A note in a window: notes.tcl FOLDER NUMBER. Whoever has the folder, or a copy that something keeps alike, opens it
# under a number of their own, from 1 to 4294967295. README.md tells how to build the package that this needs.

package require Tk 8.6
set here [file dirname [file normalize [info script]]]
lappend auto_path $here
package require peertext 1.0
source [file join $here mirror.tcl]

if {[llength $argv] != 2} {
    puts stderr "notes.tcl FOLDER NUMBER"
    exit 2
}
lassign $argv folder number
peertext::site note $number
set number [expr {int($number)}]
file mkdir $folder

set unsaved 0        ;# whether the own file lacks something
set pointed {}       ;# the stamp in the own file of the cursor
array set cursors {} ;# the stamps in the other sites' files
array set seen {}    ;# the time and size of each file of operations, when it was read last
array set faults {}  ;# what is wrong with some of these

# ---- Files

proc path_of {kind} {
    return [file join $::folder $::number.$kind]
}

# Writes a file under another name first, so that nobody reads half of it.
proc write {path bytes} {
    set file [open $path.new wb]
    try {
        puts -nonewline $file $bytes
    } finally {
        close $file
    }
    file rename -force $path.new $path
}

proc read_whole {path} {
    set file [open $path rb]
    try {
        return [read $file]
    } finally {
        close $file
    }
}

proc state_of {path} {
    return [list [file mtime $path] [file size $path]]
}

# An own edit is saved soon. What is typed behind a pause is undone by itself.
proc edited {} {
    if {!$::unsaved} {
        set ::unsaved 1
        after 300 save
    }
    after cancel pause
    after 1000 pause
    point
}

proc pause {} {
    note do .t edit separator
}

proc save {} {
    if {!$::unsaved || [.page cget -state] eq "disabled"} {
        return
    }
    set name $::number.ops
    try {
        write [path_of ops] [note export]
        set ::seen($name) [state_of [path_of ops]]
        set ::unsaved 0
        unset -nocomplain ::faults($name)
    } on error why {
        set ::faults($name) "$name isn't saved: $why"
        after 2000 save
    }
}

# Whether a file ends in zeros. It is still being filled, or never was: other text could be read in it.
proc is_unfilled {bytes} {
    return [expr {[string range $bytes end-7 end] eq [string repeat \0 8]}]
}

# Receives a file that changed. One that has a fault is read again when it changes; while its time, in whole seconds, is
# that of now, it may have changed without a sign.
proc take {path} {
    set name [file tail $path]
    set state [state_of $path]
    if {[info exists ::seen($name)] && $::seen($name) eq $state} {
        return
    }
    set bytes [read_whole $path]
    if {[is_unfilled $bytes]} {
        set told [list fresh 0 fault 32 offset [string length $bytes]]
    } else {
        set told [mirror::receive .page $bytes]
    }
    set ::seen($name) $state
    unset -nocomplain ::faults($name)
    dict with told {
        if {$fault} {
            set ::faults($name) "$name has fault $fault at byte $offset"
            if {$fault == 1 || [clock seconds] - [lindex $state 0] < 3} {
                unset ::seen($name)
            }
        }
        if {$name eq "$::number.ops" && ($fault || $fresh)} {
            set ::faults($name) "$name was written by another window: this one edits no more"
            .page configure -state disabled
        }
    }
}

# Reads the cursors of the other sites, and writes the own one.
proc look_at_cursors {} {
    array unset ::cursors
    foreach path [glob -nocomplain -directory $::folder *.cursor] {
        set who [file rootname [file tail $path]]
        if {[string is digit -strict $who] && $who != $::number} {
            set ::cursors($who) [string trim [read_whole $path]]
        }
    }
    set stamp [note stamp .t [.page count -chars 1.0 insert]]
    if {$stamp ne $::pointed} {
        write [path_of cursor] $stamp\n
        set ::pointed $stamp
    }
}

# What the line below the text says.
proc status {} {
    set told {}
    foreach name [lsort [array names ::faults]] {
        if {$name eq "$::number.ops" || [file exists [file join $::folder $name]]} {
            lappend told $::faults($name)
        } else {
            unset ::faults($name)
        }
    }
    return [expr {[llength $told] ? [join $told "; "] : $::unsaved ? "" : "saved"}]
}

# Looks at the folder. What goes meanwhile, or can't be read or written, is tried again the next time.
proc look {} {
    foreach path [lsort [glob -nocomplain -directory $::folder *.ops]] {
        try {
            take $path
        } on error why {
            set ::faults([file tail $path]) "[file tail $path]: $why"
        }
    }
    try look_at_cursors trap POSIX {} {}
    point
    set ::status [status]
}

proc watch {} {
    after 200 watch
    look
}

proc quit {} {
    save
    file delete [path_of cursor]
    exit
}

# ---- The window

# Puts a tag on the selection, or takes it off where the first character has it.
proc toggle {tag} {
    lassign [.page tag ranges sel] from to
    if {$from eq ""} {
        return [bell]
    }
    .page tag [expr {$tag in [.page tag names $from] ? "remove" : "add"}] $tag $from $to
}

# Puts a bar, and a flag with its number, where the cursor of each other site stands.
proc point {} {
    foreach part [winfo children .page] {
        if {![info exists ::cursors([string trimleft $part .abcdefghijklmnopqrstuvwxyz])]} {
            destroy $part
        }
    }
    foreach {who stamp} [array get ::cursors] {
        set bar .page.bar$who
        set flag .page.flag$who
        if {![winfo exists $bar]} {
            set colour [lindex {#b9770e #b03a2e #1f618d #1e8449 #7d3c98} [expr {$who % 5}]]
            frame $bar -background $colour
            label $flag -text $who -font Small -foreground white -background $colour -padx 2 -pady 0 -borderwidth 0
        }
        if {[catch {.page bbox "1.0 + [note place .t $stamp] chars"} box] || $box eq ""} {
            place forget $bar
            place forget $flag
        } else {
            lassign $box x y width height
            place $bar -bordermode ignore -x [expr {$x - 1}] -y $y -width 2 -height $height
            place $flag -bordermode ignore -x [expr {$x - 1}] -y $y -anchor sw
        }
    }
}

proc scrolled {args} {
    .scroll set {*}$args
    after cancel point
    after idle point
}

ttk::style theme use clam
ttk::style configure TButton -width 0 -padding {8 3}
font create Strong {*}[font configure TkTextFont] -weight bold
font create Small -family Helvetica -size -9 -weight bold
pack [ttk::frame .bar] -side top -fill x
foreach {key label script} {
    b Bold {toggle bold}
    h Highlight {toggle highlight}
    z Undo {catch {.page edit undo}}
    y Redo {catch {.page edit redo}}
} {
    pack [ttk::button .bar.$key -text $label -command $script -takefocus 0] -side left -padx {4 0} -pady 4
    bind Page <Control-$key> "$script; break"
}
pack [ttk::label .bar.site -text "site $number"] -side right -padx 8
pack [ttk::label .status -textvariable status -padding {8 3}] -side bottom -fill x
pack [ttk::scrollbar .scroll -command {.page yview}] -side right -fill y
pack [text .page -width 52 -height 14 -wrap word -font TkTextFont -padx 10 -pady 8 -spacing1 4 -borderwidth 0 \
    -highlightthickness 0 -yscrollcommand scrolled] -fill both -expand 1
bindtags .page {.page Page Text . all}
.page tag configure bold -font Strong
.page tag configure highlight -background #fff0a0
.page tag raise sel
wm title . "Note, site $number"
wm protocol . WM_DELETE_WINDOW quit

# The own file comes first: a site that lacks some of its operations would give their stamps again.
if {[file exists [path_of ops]]} {
    set seen($number.ops) [state_of [path_of ops]]
    set bytes [read_whole [path_of ops]]
    if {[is_unfilled $bytes] || [dict get [set told [note receive $bytes]] fault] || [dict get $told held]} {
        puts stderr "[path_of ops] is damaged: put a whole copy there"
        exit 1
    }
}
note do .t configure -undo 1
mirror::show .page note edited
.page mark set insert 1.0
focus .page
watch
