"""Looks whether what is wanted of each case of tests/cli/cases is what the case has: cases.py ROOT
FOLDER, where FOLDER is one to work in. Says each case that differs. Left out are those with a disk
that is full, but for installs, and those whose memory is refused."""
import os
import sys

from corpus import Corpus
from folder import content, furnish
from judge import Got, judge, prepare
from make import Run


def differs(case):
    run = Run()
    run.files, run.bytes, run.argv = dict(case.files), case.before, case.words
    run.output, run.limit = case.output, case.limit
    furnish(run)
    wanted, places = prepare(run)
    before, plan_before = map(content, places)
    got = Got()
    got.status, got.errors = case.status, case.errors or b''
    got.text = case.text if case.output == 'kept' else b''
    got.device = case.after if places[0] == 'dev.img' else before
    got.plan = case.plan if places[1] == 'dev.img.plan' else plan_before
    return judge(run, wanted, got, before, plan_before)


def is_tried(case):
    return (case.limit is None or b'install' in case.words) and case.status != 20


def main():
    corpus = Corpus(sys.argv[1])
    os.chdir(sys.argv[2])
    tried = [case for case in corpus.cases if is_tried(case)]
    for case in tried:
        for line in differs(case):
            print(f'  {case.name}: {line}')
    if len(tried) < 400:
        print(f'  only {len(tried)} cases were tried')


if __name__ == '__main__':
    main()
