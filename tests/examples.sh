#!/bin/sh
# Holds the examples to their texts, README's example to the file, the header's examples to what they say that they print,
# and the sample surveys to the program that makes them.
# Called by tests/run at the top of the repository, with cc, run and library as there.
set -eu
mkdir -p target/tests/survey
for source in examples/*.c examples/survey/make_surveys.c; do
    program=target/tests/$(basename "$source" .c)
    $cc -std=c11 -O2 -Wall -Wextra -Werror -Iinclude -o "$program" "$source" "$library"
done

status=0
$run target/tests/make_surveys target/tests/survey > /dev/null || status=1
for name in morning reload; do
    if ! cmp "target/tests/survey/$name.survey" "examples/survey/$name.survey"; then
        echo "examples/survey/$name.survey is not what examples/survey/make_surveys.c writes"
        status=1
    fi
done
sed -n '/^    \/\* A flight loop/,/^    }$/p' README.md | sed 's/^    //' > target/tests/readme.c
if ! diff examples/flight_loop.c target/tests/readme.c; then
    echo "README.md does not have examples/flight_loop.c as it is"
    status=1
fi
{
    printf '#include <stdio.h>\n#include <tishkolan.h>\nint main(void)\n{\n'
    sed -n 's,^[/ ]\*     ,,p' include/tishkolan.h | sed 's, \*/$,,'
    printf 'return 0;\n}\n'
} > target/tests/manual.c
sed -n 's,^.*\(printf\|puts\)(.*); // ,,p' target/tests/manual.c > target/tests/manual.says
$cc -std=c11 -O2 -Wall -Wextra -Werror -Iinclude -o target/tests/manual target/tests/manual.c "$library"
$run target/tests/manual > target/tests/manual.txt || status=1
if ! diff target/tests/manual.says target/tests/manual.txt; then
    echo "the examples of include/tishkolan.h do not print what they say"
    status=1
fi
$run target/tests/flight_loop > target/tests/flight_loop.txt || status=1
$run target/tests/planner examples/survey/morning.survey > target/tests/planner.txt || status=1
$run target/tests/day examples/survey/morning.survey examples/survey/reload.survey > target/tests/day.txt || status=1
for name in flight_loop planner day; do
    if ! diff "examples/$name.txt" "target/tests/$name.txt"; then
        echo "examples/$name.c does not print what examples/$name.txt has"
        status=1
    fi
done
exit $status
