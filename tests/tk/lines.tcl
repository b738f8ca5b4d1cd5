# Runs lines at random on two sites, each with a Tk text widget that shows it: wish lines.tcl SEED LINES. The widgets
# follow by what the sites tell of their own lines and of each other's files. After each step they must show the text
# and tags that their sites keep. The last line tells how many lines were run, or what differs.
package require Tk
package require peertext 1.0
source [file join [file dirname [info script]] ../../examples/tk/mirror.tcl]

lassign $argv seed count
expr {srand($seed)}

set texts [list x yy "line\n" "\n" "\n\n" "a b c" "\u20ac\u00e9" "\ud83d\ude00" \0 "\r\n" \t "" \{ \" \\ \
    [string repeat "long text\n" 30]]
set names [list bold big "b c" \u00e9 " " "a\nb" \{ t1 t2]
# how often a widget was drawn anew, which is never wanted
set draws 0

proc under {most} {
    return [expr {int(rand() * $most)}]
}

proc pick {choices} {
    return [lindex $choices [under [llength $choices]]]
}

proc spot {} {
    return [pick [list [expr {1 + [under 6]}].[under 8] [expr {1 + [under 20]}].end end "end - [under 4] chars" \
        "1.0 + [under 60] chars" "1.0 lineend" "2.0 linestart" "1.[under 5] wordend" insert]]
}

proc spots {number} {
    return [lmap it [lrepeat $number {}] {spot}]
}

proc tags {} {
    set tags [lmap it [lrepeat [under 4] {}] {pick $::names}]
    return [join [lmap tag $tags {string cat \" [string map {\\ \\\\ \" \\\" \n \\n} $tag] \"}]]
}

# The words of a line at random.
proc words {} {
    switch [under 14] {
        0 - 1 - 2 {return [list insert [spot] [pick $::texts]]}
        3 - 4     {return [list insert [spot] [pick $::texts] [tags] [pick $::texts] [tags]]}
        5 - 6     {return [list delete {*}[spots 2]]}
        7         {return [list delete {*}[spots 5]]}
        8         {return [list replace {*}[spots 2] [pick $::texts] [tags]]}
        9 - 10    {return [list tag add [pick $::names] {*}[spots 2]]}
        11        {return [list tag remove [pick $::names] {*}[spots 4]]}
        12        {return {edit undo}}
        default   {
            return [pick [list {edit redo} {edit separator} {tag raise bold} [list mark set insert [spot]] \
                [list tag delete [pick $::names]] [list tag delete [pick $::names] [pick $::names]]]]
        }
    }
}

proc shown_by {asked} {
    set shown [list [{*}$asked get 1.0 end]]
    foreach tag [lsort [{*}$asked tag names]] {
        set ranges [{*}$asked tag ranges $tag]
        if {$tag ne "sel" && [llength $ranges]} {
            lappend shown $tag $ranges
        }
    }
    return $shown
}

# A reply that is one word, as the widget answers it.
proc of_site {site command args} {
    set reply [$site do .t $command {*}$args]
    return [expr {$command eq "get" ? [lindex $reply 0] : $reply}]
}

proc compare {site step} {
    set shown [shown_by ::mirror::real.$site]
    set kept [shown_by [list of_site $site]]
    if {$shown ne $kept} {
        puts "site $site after $step shows [list $shown] and keeps [list $kept]"
        exit 1
    }
}

proc step {site other} {
    set words [words]
    if {[catch {$site do .t {*}$words}] && [llength [$site changes]]} {
        puts "site $site refuses $words and tells changes"
        exit 1
    }
    mirror::follow .$site
    if {$::draws} {
        puts "site $site doesn't know what $words changed"
        exit 1
    }
    compare $site $words
    if {[under 4] == 0} {
        mirror::receive .$other [expr {[under 2] ? [$site export] : [$site since [$other ends]]}]
        compare $other "the file behind $words"
    }
}

foreach {site number} {a 1 b 2} {
    peertext::site $site $number
    $site do .t configure -undo 1
    pack [text .$site]
    mirror::show .$site $site {}
}
rename mirror::draw mirror::drawn
proc mirror::draw {window} {
    incr ::draws
    drawn $window
}
for {set turn 0} {$turn < $count} {incr turn} {
    step {*}[pick {{a b} {b a}}]
}
mirror::receive .a [b export]
mirror::receive .b [a export]
if {[shown_by ::mirror::real.a] ne [shown_by ::mirror::real.b]} {
    puts "in the end the widgets differ"
    exit 1
}
puts "$count lines"
exit
