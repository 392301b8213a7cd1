# Evaluates an NS file by a real Tcl in which the words of the testbed only note what the file asks for:
#
#     tclsh flat.tcl FILE SECONDS
#
# The file runs in a safe interpreter of its own. It reaches no file, program or channel, and has limits on commands and time; memory and
# processor time are limited by who starts this. Records go to standard output, a line each, with tabs between fields, and backslashes,
# tabs and line ends escaped:
#
#     call LINE RESULT WORD ..    a command of the testbed, and the word of the object that it gave, if it gave one
#     says LINE TEXT              what `puts` would print, once a line
#     name OBJECT VARIABLE        the first global variable that an object is set to
#     run LINE                    `$ns run`, behind which nothing is evaluated
#     end                         the file ends without it
#     fault LINE KIND TEXT        the command on that line can't be evaluated

# The most commands of a file, commands of the testbed, bytes of what these are given, and lines whose `puts` is told.
set MOST_COMMANDS 1000000
set MOST_CALLS 20000
set MOST_BYTES 4000000
set MOST_SAID 1000

set records {}
set end {}
set calls 0
set bytes 0
array set kinds {}
array set counts {n 0 l 0 o 0}
array set named {}
array set inner {}
array set said {}
set ends {}

# Words that would reach out of the text, or wait. Each ends the evaluation.
set refused {
    after cd chan close coroutine encoding eof exec exit fblocked fconfigure fcopy file fileevent flush gets glob history interp load open pid
    pwd read seek socket tell trace unload update vwait yield yieldto zlib
}
# Words that the notes rest on, which a file may not make anew, rename or take away.
set kept [concat $refused {info namespace proc puts rename set source unknown}]

proc record {args} {
    set fields {}
    foreach field $args { lappend fields [string map {\\ \\\\ \t \\t \n \\n \r \\r} $field] }
    lappend ::records [join $fields \t]
}

# Gives the line of the file that is under way: the innermost one.
proc line {} {
    if {[catch {file_interp eval {::info frame}} depth] || ![string is integer -strict $depth]} { return 0 }
    for {set k $depth} {$k > 0} {incr k -1} {
        if {[catch {file_interp eval [list ::info frame $k]} frame]} { continue }
        if {[catch {dict get $frame file} file] || $file ne $::path} { continue }
        set line [dict get $frame line]
        return [expr {[string is digit -strict $line] ? $line : 0}]
    }
    return 0
}

# Ends the evaluation, also where the file catches errors: no further command is allowed.
proc halt {args} {
    if {$::end eq ""} { set ::end $args }
    interp limit file_interp command -value 1
    return -code error "the evaluation has ended"
}

# Ends the evaluation where it went over a limit; what asks for the line needs more of it.
proc over {kind} {
    if {$::end ne ""} { return }
    interp limit file_interp command -value 2000000000
    interp limit file_interp time -seconds [expr {[clock seconds] + 1000}]
    catch {halt fault [line] $kind {}}
}

proc refuse {word args} { halt fault [line] refused $word }

proc note {result words} {
    if {[incr ::calls] > $::MOST_CALLS} { halt fault [line] calls $::MOST_CALLS }
    incr ::bytes [string length $words]
    if {$::bytes > $::MOST_BYTES} { halt fault [line] bytes $::MOST_BYTES }
    record call [line] $result {*}$words
    return $result
}

# Gives the word of a new object: n is a node, l a link or LAN, o another one. No file spells such a word by chance.
proc object {kind} {
    set word :$kind$::counts($kind)
    incr ::counts($kind)
    set ::kinds($word) $kind
    return $word
}

proc kind_of {word} { return [expr {[info exists ::kinds($word)] ? $::kinds($word) : ""}] }

proc need_node {word} {
    if {[kind_of $word] ne "n"} { return -code error "no node: $word" }
}

# Gives the link between two nodes.
proc link_between {one other} {
    foreach {word pair} $::ends {
        if {$pair eq [list $one $other] || $pair eq [list $other $one]} { return $word }
    }
    return -code error "no link between these nodes"
}

# `$ns VERB ..`
proc simulated {words} {
    lassign $words - verb one other
    switch -- $verb {
        "" { return -code error "the simulator wants a word behind it" }
        run { halt run [line] }
        node { return [note [object n] $words] }
        link { return [link_between $one $other] }
        at - rtproto - cost { return [note "" $words] }
        duplex-link - simplex-link {
            need_node $one
            need_node $other
            set word [object l]
            lappend ::ends $word [list $one $other]
            return [note $word $words]
        }
        make-lan - newLan {
            foreach member [regexp -all -inline {\S+} $one] { need_node $member }
            return [note [object l] $words]
        }
        default { return [note [object o] $words] }
    }
}

# A word that is no command of Tcl.
proc called {args} {
    set word [lindex $args 0]
    if {$word eq ":ns"} { return [simulated $args] }
    if {$word eq "new"} {
        if {[lindex $args 1] ne "Simulator"} { return [note [object o] $args] }
        note "" $args
        return :ns
    }
    if {[kind_of $word] ne ""} { return [note [object o] $args] }
    if {[string match tb-* $word]} { return [note "" $args] }
    # Classes of objects, as `Agent/TCP` and `Queue`, whose settings are of no use here.
    if {[string match {[A-Z]*} $word]} { return [note "" $args] }
    return -code error "no such command: $word"
}

proc sourced {args} {
    if {[llength $args] != 1 || ![regexp {(^|/)tb_compat\.tcl$} [lindex $args 0]]} { refuse source }
    note "" [list source tb_compat.tcl]
}

proc says {args} {
    set line [line]
    if {![info exists ::said($line)] && [array size ::said] < $::MOST_SAID} {
        set ::said($line) 1
        record says $line [string range [lindex $args end] 0 500]
    }
    return ""
}

# Behind `set`: a global variable names an object that has no name.
proc name_behind {command code result op} {
    if {$code == 0 && [string index $result 0] eq ":"} { name_by [lindex $command 1] $result }
}

proc name_by {variable word} {
    if {[kind_of $word] ni {n l} || [info exists ::named($word)]} { return }
    # A variable of a procedure gives no name, but it may stand for a global one: that is looked for in the end.
    if {[file_interp eval {::info level}] != 0} { return [set ::inner($word) 1] }
    set ::named($word) [string trimleft $variable :]
    record name $word $::named($word)
}

# Before `proc` and `rename`: the words that the notes rest on stay what they are.
proc guard {command op} {
    foreach word [lrange $command 1 [expr {[lindex $command 0] in {rename ::rename} ? 2 : 1}]] {
        set word [string trimleft $word :]
        if {$word in $::kept || [string match tcl::* $word]} { halt fault [line] anew $word }
    }
}

# Names objects that procedures have set by the global variables that hold them in the end.
proc name_rest {} {
    if {![array size ::inner]} { return }
    set variables {}
    foreach variable [lsort [file_interp eval {::info globals}]] {
        if {[file_interp eval [list ::array exists $variable]]} {
            foreach index [lsort [file_interp eval [list ::array names $variable]]] { lappend variables "${variable}($index)" }
        } else {
            lappend variables $variable
        }
    }
    foreach variable $variables {
        if {![catch {file_interp eval [list ::set $variable]} value] && [info exists ::inner($value)]} { name_by $variable $value }
    }
}

# Gives the line and the text of an error, from Tcl's own account of it.
proc account {message trace} {
    set line 0
    set where ""
    foreach {- what k} [regexp -all -inline {\n    \((.*?) line (\d+)\)} $trace] {
        switch -glob -- $what {
            "file *" { set line [expr {$line + $k}] }
            "procedure *" { set line 0; if {$where eq ""} { set where " (in the $what, line $k of it)" } }
            default { incr line [expr {$k - 1}] }
        }
    }
    return [list $line $message$where]
}

proc prepare {seconds} {
    interp create -safe file_interp
    catch { file_interp eval { namespace delete ::tcl::unsupported } }
    file_interp eval { namespace eval ::GLOBALS { variable pid project eid experiment gid project } }
    file_interp eval { set argc 0; set argv {}; set argv0 ns; expr {srand(1)} }
    foreach {word target} {:behind name_behind :guard guard unknown called source sourced puts says} {
        file_interp eval [list catch [list rename $word {}]]
        interp alias file_interp $word {} $target
    }
    file_interp eval { trace add execution set leave :behind }
    foreach command {proc rename} { file_interp eval [list trace add execution $command enter :guard] }
    foreach word $::refused {
        catch {file_interp hide $word}
        interp alias file_interp $word {} refuse $word
    }
    file_interp recursionlimit 500
    interp limit file_interp command -value $::MOST_COMMANDS -command {over commands}
    interp limit file_interp time -seconds [expr {[clock seconds] + $seconds}] -command {over time}
}

proc evaluate {} {
    set status [catch {file_interp invokehidden source -encoding iso8859-1 $::path} message options]
    interp limit file_interp command -value {}
    interp limit file_interp time -seconds {}
    if {$::end ne ""} { return }
    if {$status != 1} { return [set ::end end] }
    lassign [account $message [dict get $options -errorinfo]] line text
    set ::end [list fault $line tcl $text]
}

lassign $argv path seconds
set path [file normalize $path]
prepare $seconds
evaluate
catch name_rest
record {*}$end
fconfigure stdout -encoding utf-8 -translation lf
puts [join $records \n]
