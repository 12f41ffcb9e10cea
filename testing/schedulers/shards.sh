# What cases on the scripts of examples/scale begin with, by `.`: eight shards, what one run over all of them writes, and
# words to say whether a script writes the same.
scale=examples/scale
export columns=time:text,host:text,ms:int,user:text
export query='SELECT host, COUNT(*) AS requests, COUNT(DISTINCT user) AS users, AVG(ms) AS average
  FROM lines GROUP BY ROLLUP (host)'
export real="$PWD/jlreport"
usual_path=$PATH
split -n l/8 -d examples/requests.jsonl shard.
ls shard.?? >shards
"$real" --columns "$columns" --query "$query" examples/requests.jsonl >whole.csv 2>whole.refused

# told COMMAND: what a script ends with, and whether its report and its list are those of one run.
told() {
    report=another list=another status=0
    "$@" >joined.csv 2>joined.refused || status=$?
    cmp -s joined.csv whole.csv && report='the same'
    cmp -s joined.refused whole.refused && list='the same'
    echo "status $status, $report report, $list list"
}

# put_first: puts the script of its input in front of the program, which it finds as $real. The shard, or -, is the
# last of its words, $shard.
put_first() {
    mkdir -p first
    { printf '#!/bin/sh\nfor shard; do :; done\n' && cat; } >first/jlreport
    chmod +x first/jlreport
    export PATH="$PWD/first:$usual_path"
}

# put_away: takes that script away again.
put_away() { rm -f first/jlreport; }
