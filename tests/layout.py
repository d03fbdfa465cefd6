"""Measure what it costs to hand a decoded plant to a function once for each row: 1,024 row structs by value, or one column lent.

A slice of structs cannot be lent to a function whose proof the kit's borrow checker writes, so rows kept as structs are
passed by value. Both functions are compiled from one crate, made here outside of the repository, and timed in one run.

    python3 tests/layout.py
"""
import os
import subprocess
import sys
import tempfile

EXPORTS = '''
#[repr(C)]
#[derive(Clone, Copy)]
pub struct Row { pub machine: u8, pub left: u8, pub entered: u8, pub sent: u8, pub taken: u8, pub progress: bool }

#[repr(C)]
#[derive(Drop)]
pub struct Rows { pub rows: [Row; 1024] }

#[unsafe(no_mangle)]
pub extern "C" fn by_value(t: Rows, k: usize) -> u8 {
    if k < 1024 {
        let r = t.rows[k];
        return r.entered;
    }
    0
}

#[unsafe(no_mangle)]
pub extern "C" fn lent(entered: &[u8; 1024], k: usize) -> u8 {
    if k < 1024 {
        return entered[k];
    }
    0
}
'''

DRIVER = '''#include <stdbool.h>
#include <stdint.h>
#include <stdio.h>
#include <time.h>
typedef struct { uint8_t machine, left, entered, sent, taken; bool progress; } Row;
typedef struct { Row rows[1024]; } Rows;
uint8_t by_value(Rows t, size_t k);
uint8_t lent(const uint8_t *entered, size_t k);
static Rows rows;
static uint8_t column[1024];
static double now(void) { struct timespec t; clock_gettime(CLOCK_MONOTONIC, &t); return t.tv_sec * 1e9 + t.tv_nsec; }
int main(void) {
    unsigned sum = 0;
    for (int k = 0; k < 1024; k++) { rows.rows[k].entered = k % 61; column[k] = k % 61; }
    double a = now();
    for (int round = 0; round < 200; round++) for (size_t k = 0; k < 1024; k++) sum += by_value(rows, k);
    double b = now();
    for (int round = 0; round < 200; round++) for (size_t k = 0; k < 1024; k++) sum -= lent(column, k);
    double c = now();
    printf("%u %.1f %.1f\\n", sum, (b - a) / 204800, (c - b) / 204800);
    return 0;
}
'''


def main():
    with tempfile.TemporaryDirectory() as folder:
        os.makedirs(os.path.join(folder, 'crates', 'layout', 'src'))
        for path, text in (('crates/layout/src/lib.rt', '// Two ways to hand over the rows of a plant.\n#![tactic(auto)]\n' + EXPORTS), ('crates.txt', 'layout staticlib:\n'), ('driver.c', DRIVER)):
            with open(os.path.join(folder, path), 'w', encoding='utf-8') as out:
                out.write(text)
        crate = os.path.join(folder, 'crates', 'layout')
        for place, command in ((crate, ['rt', 'lib']), (folder, ['gcc', '-O2', 'driver.c', '-Lcrates/layout/out', '-llayout', '-o', 'driver'])):
            done = subprocess.run(command, cwd=place, capture_output=True, text=True)
            if done.returncode != 0:
                sys.exit('layout.py: %s failed:\n%s' % (' '.join(command), (done.stdout + done.stderr)[-2000:]))
        ratios = []
        for _ in range(5):
            difference, value, column = subprocess.run(['./driver'], cwd=folder, capture_output=True, text=True, check=True).stdout.split()
            if difference != '0':
                sys.exit('layout.py: the two functions differ')
            ratios.append((float(value) / float(column), value, column))
        ratio, value, column = sorted(ratios)[2]
        print('layout.py: a call with the rows by value took %s ns, with a column lent %s ns: %.0f times as long' % (value, column, ratio))


if __name__ == '__main__':
    main()
