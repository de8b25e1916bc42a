# Turns the sample and the examples in the comments of include/radar_archive.h into a C program, whose last line is 'N passed, 0 failed'.
BEGIN {
    print "#include <assert.h>\n#include <stdio.h>\n#include <string.h>\n#include \"radar_archive.h\"\n"
}
function close_example() {
    if (inside == "example")
        print "}\n"
    inside = ""
}
/^ \* Sample:$/ { inside = "sample"; next }
/^ \* Example:$/ { inside = "example"; count++; print "static void example_" count "(void)\n{"; next }
inside != "" && /^ \*     / { print substr($0, 8); next }
{ close_example() }
END {
    print "int main(void)\n{"
    for (i = 1; i <= count; i++)
        print "    example_" i "();"
    print "    printf(\"%d passed, 0 failed\\n\", " count ");\n    return " (count > 0 ? 0 : 1) ";\n}"
}
