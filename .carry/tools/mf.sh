#!/bin/bash
# mf.sh TREE CRATE LABEL..: try only these edits of one crate, and print each first error
tree=$1; crate=$2; shift 2
work=/tmp/mftree.$$; mkdir -p $work; cp -r $tree/crates $work/crates; cp $tree/crates.txt $work/
mkdir -p $work/target; for d in rlib stamp log bin obj; do [ -d $tree/target/$d ] && cp -r $tree/target/$d $work/target/; done
cd $work
for c in crates/*/must-fail; do n=$(basename $(dirname $c)); if [ $n != $crate ]; then rm -rf $c; else for e in $c/*.edit; do l=$(basename $e .edit); case " $* " in *" $l "*) ;; *) [ -z "$*" ] || rm $e;; esac; done; fi; done
RT_JOBS=${RT_JOBS:-1} rt must-fail $crate 2>&1 | grep -E "must-fail|passed|failed|NOT"
for l in target/must-fail/$crate/*/.log; do echo "== $(basename $(dirname $l))"; grep -m1 -E "error" $l | sed "s#$work/target/must-fail/##" | cut -c1-420; done
rm -rf $work
