//! The header's `lfat_seconds`: every day against the calendar of the C library, every bound, and the example with a clock.

use crate::header::{example, Program};

/// In each standard of C and C++ that the header is for.
const COMPILERS: [(&str, &str); 4] = [
    ("gcc", "c99"),
    ("gcc", "c11"),
    ("g++", "c++11"),
    ("g++", "c++17"),
];

/// Builds a program with each compiler; each prints what is wrong, and the number of cases.
fn check(what: &str, source: &str, wanted: &str) {
    for (compiler, standard) in COMPILERS {
        let program = Program::build(compiler, standard, what, source).expect("a compiler");
        let text = String::from_utf8_lossy(&program.printed(&[])).into_owned();
        assert_eq!(text, wanted, "{compiler} {standard}");
    }
}

/// Every day from 1980 to 2107, at its first and last second and one between.
#[test]
fn every_day() {
    let source = r#"
#ifndef _DEFAULT_SOURCE
#define _DEFAULT_SOURCE
#endif
#include "lfat.h"
#include <stdio.h>
#include <string.h>
#include <time.h>
static time_t at(int year, int month, int day)
{
    struct tm t;
    memset(&t, 0, sizeof t);
    t.tm_year = year - 1900;
    t.tm_mon = month - 1;
    t.tm_mday = day;
    return timegm(&t);
}
int main(void)
{
    long days = 0;
    time_t start = at(1980, 1, 1), end = at(2108, 1, 1), now;
    for (now = start; now < end; now += 86400, days++) {
        const struct tm *t = gmtime(&now);
        int year = t->tm_year + 1900, month = t->tm_mon + 1, day = t->tm_mday;
        uint32_t due = (uint32_t)(now - start);
        if (lfat_seconds(year, month, day, 0, 0, 0) != due || lfat_seconds(year, month, day, 23, 59, 59) != due + 86399 ||
            lfat_seconds(year, month, day, 13, 45, 31) != due + 13 * 3600 + 45 * 60 + 31)
            printf("%d-%d-%d\n", year, month, day);
    }
    printf("%ld %lu\n", days, (unsigned long)(end - start - 1));
    return 0;
}
"#;
    check("days", source, "46751 4039286399\n");
}

/// What is no date or time, and what is out of range, gives a number past the last second; months and days that are there do not.
#[test]
fn every_bound() {
    let source = r#"
#include "lfat.h"
#include <limits.h>
#include <stdio.h>
static int cases;
static void due(int line, int taken, uint32_t seconds)
{
    cases++;
    if ((seconds <= LFAT_LAST_SECOND) != taken)
        printf("line %d\n", line);
}
#define IS(...) due(__LINE__, 1, lfat_seconds(__VA_ARGS__))
#define NO(...) due(__LINE__, 0, lfat_seconds(__VA_ARGS__))
int main(void)
{
    static const int days[] = {31, 28, 31, 30, 31, 30, 31, 31, 30, 31, 30, 31};
    int year, month;
    for (year = 1980; year <= 2107; year++)
        for (month = 1; month <= 12; month++) {
            int last = days[month - 1] + (month == 2 && year % 4 == 0 && year != 2100);
            IS(year, month, last, 23, 59, 59);
            NO(year, month, last + 1, 0, 0, 0);
            NO(year, month, 0, 0, 0, 0);
        }
    NO(1979, 12, 31, 23, 59, 59);
    NO(2108, 1, 1, 0, 0, 0);
    NO(0, 0, 0, 0, 0, 0);
    NO(80, 1, 1, 0, 0, 0);
    NO(2026, 0, 1, 0, 0, 0);
    NO(2026, 13, 1, 0, 0, 0);
    NO(2026, 1, 1, 24, 0, 0);
    NO(2026, 1, 1, -1, 0, 0);
    NO(2026, 1, 1, 0, 60, 0);
    NO(2026, 1, 1, 0, -1, 0);
    NO(2026, 1, 1, 0, 0, 61);
    NO(2026, 1, 1, 0, 0, -1);
    NO(INT_MIN, INT_MIN, INT_MIN, INT_MIN, INT_MIN, INT_MIN);
    NO(INT_MAX, INT_MAX, INT_MAX, INT_MAX, INT_MAX, INT_MAX);
    NO(2026, INT_MAX, 1, 0, 0, 0);
    NO(2026, 1, INT_MAX, 0, 0, 0);
    IS(2107, 12, 31, 23, 59, 60);
    /* A leap second is the one before it. */
    if (lfat_seconds(2016, 12, 31, 23, 59, 60) != lfat_seconds(2016, 12, 31, 23, 59, 59))
        printf("leap second\n");
    if (lfat_seconds(1980, 1, 1, 0, 0, 0) != 0 || lfat_seconds(2107, 12, 31, 23, 59, 59) != LFAT_LAST_SECOND)
        printf("ends\n");
    if (lfat_seconds(2026, 11, 17, 19, 30, 58) != 1479411058)
        printf("example\n");
    printf("%d\n", cases);
    return 0;
}
"#;
    check("bounds", source, "4625\n");
}

/// The example with a clock, in two zones at one moment: local time, summer time included.
#[test]
fn a_clock() {
    let example = example("Example: the seconds from a clock");
    assert!(example.contains("localtime") && example.contains("lfat_seconds"));
    // A clock that stands at 1 July 2026, 12:00 in Greenwich.
    let example = example.replace("time(NULL)", "1782907200");
    let source = format!(
        "#ifndef _DEFAULT_SOURCE\n#define _DEFAULT_SOURCE\n#endif\n\
         #include \"lfat.h\"\n#include <stdio.h>\n#include <stdlib.h>\n#include <time.h>\n\
         static void print(const char *zone) {{\nsetenv(\"TZ\", zone, 1);\ntzset();\n{{\n{example}\n\
         printf(\"%lu\\n\", (unsigned long)(seconds - lfat_seconds(2026, 7, 1, 0, 0, 0)));\n}}\n}}\n\
         int main(void) {{\nprint(\"UTC0\");\nprint(\"EET-2EEST,M3.5.0/3,M10.5.0/4\");\nprint(\"AAA+5:30\");\nreturn 0;\n}}\n"
    );
    let hours = |minutes: u32| minutes * 60;
    let wanted = [hours(720), hours(900), hours(390)];
    let wanted: String = wanted
        .iter()
        .map(|seconds| format!("{seconds}\n"))
        .collect();
    check("clock", &source, &wanted);
}
