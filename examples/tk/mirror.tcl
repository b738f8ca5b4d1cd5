# Tk text widgets that show the text of a site of the package peertext. They never edit by themselves: what a key, a
# button or a program asks of one goes to its site as a line, and the changes that the site tells are made on the real
# widget. What comes in a file of another site is shown by the same changes.
#
#   mirror::show WINDOW SITE SCRIPT   the widget shows the site from then on; after its own edits the script is run
#   mirror::receive WINDOW BYTES      gives the site a file, shows what changed, and answers what became of the file

namespace eval mirror {
    variable sites      ;# the site of each widget
    variable scripts    ;# what is run after the edits of each
    variable touched    ;# the place behind the last change of each
}

proc mirror::show {window site script} {
    variable sites
    variable scripts
    set sites($window) $site
    set scripts($window) $script
    rename ::$window ::mirror::real$window
    interp alias {} ::$window {} ::mirror::asked $window
    draw $window
}

proc mirror::receive {window bytes} {
    variable sites
    set real ::mirror::real$window
    set told [$sites($window) receive $bytes]
    # of two who type at one place each keeps typing behind the own text
    $real mark gravity insert left
    follow $window
    $real mark gravity insert right
    return $told
}

proc mirror::at {place} {
    return "1.0 + $place chars"
}

# Makes the changes of the site's last line or file, and answers whether there were any. A widget that nobody may edit
# shows them too.
proc mirror::follow {window} {
    variable sites
    variable touched
    set real ::mirror::real$window
    try {
        set changes [$sites($window) changes]
    } trap PEERTEXT {} {
        draw $window
        return 1
    }
    set state [$real cget -state]
    $real configure -state normal
    foreach change $changes {
        lassign $change kind first second third
        switch $kind {
            insert {
                $real insert [at $first] $second [lrange $change 3 end]
                set touched($window) [expr {$first + [string length $second]}]
            }
            delete {
                $real delete [at $first] [at $second]
                set touched($window) $first
            }
            tag {
                $real tag add $first [at $second] [at $third]
            }
            untag {
                $real tag remove $first [at $second] [at $third]
            }
        }
    }
    $real configure -state $state
    return [expr {[llength $changes] > 0}]
}

# Shows the whole text, at first and where memory is wanting for the changes.
proc mirror::draw {window} {
    variable sites
    set site $sites($window)
    set real ::mirror::real$window
    set state [$real cget -state]
    set cursor [$real index insert]
    $real configure -state normal
    $real delete 1.0 end
    $real insert 1.0 [string range [lindex [$site do .t get 1.0 end] 0] 0 end-1]
    foreach tag [$real tag names] {
        if {$tag ne "sel"} {
            $real tag remove $tag 1.0 end
        }
    }
    foreach tag [$site do .t tag names] {
        foreach {from to} [$site do .t tag ranges $tag] {
            $real tag add $tag $from $to
        }
    }
    $real mark set insert $cursor
    $real configure -state $state
}

# Runs a line that edits, shows what it changed, and answers its reply.
proc mirror::edit {window args} {
    variable sites
    variable scripts
    if {[::mirror::real$window cget -state] eq "disabled"} {
        return
    }
    try {
        return [$sites($window) do .t {*}$args]
    } finally {
        if {[follow $window]} {
            uplevel #0 $scripts($window)
        }
    }
}

# Undoes or redoes, and puts the cursor behind what that changed.
proc mirror::revert {window what} {
    variable touched
    set real ::mirror::real$window
    set touched($window) [$real count -chars 1.0 insert]
    edit $window edit $what
    $real mark set insert [at $touched($window)]
    $real see insert
}

# Indices of the real widget as lines and characters, which the site reads too. None is behind the last newline: that is
# never taken away, and gets no tags here.
proc mirror::spots {window args} {
    set real ::mirror::real$window
    set end [$real index "end - 1 chars"]
    return [lmap index $args {if {[$real compare $index < $end]} {$real index $index} {set end}}]
}

# Texts and lists of tags in turn, each list as the site reads one.
proc mirror::with_tags {args} {
    set words {}
    foreach {text tags} $args {
        lappend words $text [join [lmap tag $tags {string cat \" [string map {\\ \\\\ \" \\\"} $tag] \"}]]
    }
    return [lrange $words 0 [llength $args]-1]
}

# The command of a widget, in place of the real one.
proc mirror::asked {window command args} {
    variable sites
    lassign $args first second
    switch -- $command {
        insert {
            return [edit $window insert {*}[spots $window $first] {*}[with_tags {*}[lrange $args 1 end]]]
        }
        delete {
            if {[llength $args] % 2} {
                lappend args "[lindex $args end] + 1 chars"
            }
            return [edit $window delete {*}[spots $window {*}$args]]
        }
        replace {
            return [edit $window replace {*}[spots $window $first $second] {*}[with_tags {*}[lrange $args 2 end]]]
        }
        edit {
            if {$first in {undo redo}} {
                return [revert $window $first]
            }
            return [$sites($window) do .t edit {*}$args]
        }
        tag {
            if {$first in {add remove} && $second ne "sel"} {
                return [edit $window tag $first $second {*}[spots $window {*}[lrange $args 2 end]]]
            }
            if {$first eq "delete"} {
                foreach name [lrange $args 1 end] {
                    edit $window tag delete $name
                }
            }
        }
        cget - configure {
            if {$first in {-undo -autoseparators -maxundo}} {
                return [$sites($window) do .t $command {*}$args]
            }
        }
        image - peer - window {
            error "a site has characters and tags alone"
        }
    }
    ::mirror::real$window $command {*}$args
}
