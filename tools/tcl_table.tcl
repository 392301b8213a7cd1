# Prints what a real Tcl makes of each text, as crates/rows/stdout has it: the text, and the value that its variable `r` has at the end,
# or `!` where Tcl refuses it. Without their first signs the lines of texts are those of crates/rows/stdin:
#
#     tclsh tools/tcl_table.tcl
#
# An `@` stands for a backslash and a line feed. Texts in which the interpreter differs from Tcl on purpose are not among them; docs/DECISIONS.md lists those.

set texts {
    {set r 1}
    {set r "a b"}
    {set r {a b}}
    {set r {a {b c} d}}
    {set r {a \} b}}
    {set r "a\"b"}
    {set r a;set r b}
    {set r "a;b"}
    {set r {}}
    {set x 5; set r $x}
    {set x 5; set r ${x}y}
    {set x 5; set r "<$x>"}
    {set x 5; set r {$x}}
    {set x 5; set r a$x.b}
    {set r a$}
    {set r "$ b"}
    {set r \$x}
    {set r a\tb}
    {set r "a\nb"}
    {set r \[x\]}
    {set r \\}
    {set x(1) a; set r $x(1)}
    {set i 2; set x(2) b; set r $x($i)}
    {set x(a) 1; set y(1) c; set r $y($x(a))}
    {set i 1; set x(1) d; set r "$x($i)$x([set i])"}
    {set r [set x 3]}
    {set r a[set x 3]b}
    {set r "[set x 3][set y 4]"}
    {set r [set x 1; set y 2]}
    {set r [set x [set y 9]]}
    {set r "[set x "a b"]"}
    {set r [set x {]}]}
    {set x {[set y 1]}; set r $x}
    {set x {$y}; set r "$x"}
    {set x {a b}; set r $x}
    {set x "a;set r 9"; set r $x}
    {set x 5; incr x; set r $x}
    {set x 5; incr x 10; set r $x}
    {set x 5; set r [incr x -7]}
    {set r a; append r b c d}
    {append r x; append r y}
    {set x 1; append r $x$x; append r " "}
    {lappend r a; lappend r b c}
    {set r a; lappend r b}
    {set r [expr 1 + 2 * 3]}
    {set r [expr (1 + 2) * 3]}
    {set r [expr -7 / 2]}
    {set r [expr -7 % 2]}
    {set r [expr 7 / -2]}
    {set r [expr 7 % -2]}
    {set r [expr -8 / -3]}
    {set r [expr -8 % -3]}
    {set r [expr 10 - 4 - 3]}
    {set r [expr 100 / 10 / 2]}
    {set r [expr 2 * 3 % 4]}
    {set r [expr - 5 + 2]}
    {set r [expr - -5]}
    {set r [expr !0]}
    {set r [expr !7]}
    {set r [expr !!3]}
    {set r [expr 1 < 2]}
    {set r [expr 2 <= 1]}
    {set r [expr 3 > 2 == 1]}
    {set r [expr 3 >= 4]}
    {set r [expr 4 == 4]}
    {set r [expr 4 != 4]}
    {set r [expr 1 && 0 || 1]}
    {set r [expr 1 || 0 && 0]}
    {set r [expr 5 && 7]}
    {set r [expr {0 && [set y 1]}]}
    {set r [expr {1 || $nothing}]}
    {set y 0; set r [expr {0 && [incr y]}]; set r $y}
    {set y 0; set r [expr {1 && [incr y]}]; set r $y}
    {set x 4; set r [expr {$x * $x}]}
    {set x 4; set r [expr $x+1]}
    {set x(2) 6; set i 2; set r [expr {$x($i) - 1}]}
    {set r [expr {[set x 3] + 4}]}
    {set r [expr 3-1]}
    {set r [expr 1+ 1]}
    {if 1 {set r a}}
    {if 0 {set r a} else {set r b}}
    {if 0 {set r a} elseif 1 {set r b} else {set r c}}
    {if 0 {set r a} elseif 0 {set r b} else {set r c}}
    {set r [if 0 {set x a}]}
    {set x 3; if {$x > 2} {set r big}}
    {for {set i 0} {$i < 3} {incr i} {append r $i}}
    {for {set i 0; set r x} {$i < 0} {incr i} {append r $i}}
    {set r [for {set i 0} {$i < 3} {incr i} {set x $i}]}
    {foreach x {a b c} {append r <$x>}}
    {foreach x "1 2
3" {append r $x}}
    {set r z; foreach x {} {set r y}}
    {foreach x {1 2} {foreach y {a b} {append r $x$y}}}
    {# a comment
set r 1}
    {# a comment @  that goes on
set r 2}
    {set r 1 ;# behind}
    {set r a@   b}
    {set r {a@   b}}
    {set r "a@   b"}
    {set r [set x 1@  ]}
    {append r a@ b@ c}
    {set a 1
set b 2
set r $a$b}
    {set r $nothing}
    {set r [nothing]}
    {set r}
    {set r "abc}
    "set r \{abc"
    {set r [abc}
    {set r "a"b}
    {set r {a}b}
    {set r [expr 1 / 0]}
    {set r [expr 1 % 0]}
    {set r [expr 1 +]}
    {set r [expr (1]}
    {set r [expr 1 2]}
    {set x a; incr x}
    {incr}
    {if}
    {if 1}
    {for {} {} {}}
    {foreach x}
}

# a text as the letters of a row
proc letters {text} {
    return [string map {\\ \\\\ \n \\n \t \\t} $text]
}

proc value {text} {
    set tcl [interp create]
    if {[catch {$tcl eval $text}] || [catch {$tcl eval {set r}} value]} {
        set value !
    }
    interp delete $tcl
    return $value
}

foreach text $texts {
    set text [string map [list @ "\\\n"] $text]
    puts "== value [letters $text]\n[value $text]"
}
