#!/bin/sh
# try.sh [PROGRAM]: distributed runs on this machine alone. 200 stores (STORES) are asked in 8 shards (SHARDS) on three machines, which are three sshd
# on loopback ports with keys of their own: of extracts, and with whole segments. The lines must be those of one process that is asked of all. In
# the last run one machine is killed while it has tasks; then parts are taken away and changed, which must be seen. The names of the runs and of a
# store have blanks, and a store's name begins with a dash.
#
# Wants Debian's packages openssh-server and parallel, which it installs where they are missing, and crates/bulwynef/out/bulwynef or PROGRAM.
set -eu
here=$(cd "$(dirname "$0")" && pwd)
BULWYNEF=$(realpath "${1:-$here/../crates/bulwynef/out/bulwynef}")
export BULWYNEF
STORES=${STORES:-200} SHARDS=${SHARDS:-8} PORTS="22201 22202 22203"

# RUNLEVEL=1: the packages' own services are not started.
command -v parallel > /dev/null && [ -x /usr/sbin/sshd ] || {
    RUNLEVEL=1 DEBIAN_FRONTEND=noninteractive apt-get -o DPkg::Lock::Timeout=300 install -y --no-install-recommends parallel openssh-server openssh-client > /dev/null
}

room=$(mktemp -d /tmp/bulwynef-distributed.XXXXXX)
servers=
children() { cat "/proc/$1/task/$1/children" 2> /dev/null || true; }
# Ends a server and its sessions, by their numbers.
end() {
    for child in $(children "$1"); do end "$child"; done
    kill -9 "$1" 2> /dev/null || true
}
clean() {
    for server in $servers; do end "$server"; done
    rm -rf "$room"
}
trap clean EXIT
trap 'exit 130' INT TERM

# ---- three machines

ssh-keygen -q -t ed25519 -N '' -f "$room/key"
cp "$room/key.pub" "$room/allowed"
mkdir -p /run/sshd
# What each machine runs: what it is asked to, unless it hangs. A task that is not done stays with a machine that hangs until that is killed.
cat > "$room/machine" << END
#!/bin/sh
if [ "\$1" = 22203 ] && [ -e "$room/hang" ]; then touch "$room/hung"; exec sleep 600; fi
exec sh -c "\$SSH_ORIGINAL_COMMAND"
END
chmod +x "$room/machine"
for port in $PORTS; do
    ssh-keygen -q -t ed25519 -N '' -f "$room/host-$port"
    printf '[127.0.0.1]:%s %s\n' "$port" "$(cut -d' ' -f1,2 "$room/host-$port.pub")" >> "$room/known"
    /usr/sbin/sshd -D -e -f /dev/null -p "$port" -h "$room/host-$port" -o ListenAddress=127.0.0.1 -o AuthorizedKeysFile="$room/allowed" \
        -o StrictModes=no -o UsePAM=no -o SetEnv=HOME="$room" -o PasswordAuthentication=no -o PermitRootLogin=prohibit-password -o MaxStartups=100 -o PidFile=none \
        -o ForceCommand="$room/machine $port" \
        2> "$room/sshd-$port.log" &
    servers="$servers $!"
    last=$! last_port=$port
    echo "2/ssh -i $room/key -p $port -o UserKnownHostsFile=$room/known -o IdentitiesOnly=yes -o BatchMode=yes -o ConnectTimeout=5 $(id -un)@127.0.0.1" >> "$room/hosts"
done
for port in $PORTS; do
    tries=0
    until ssh -i "$room/key" -p "$port" -o UserKnownHostsFile="$room/known" -o IdentitiesOnly=yes -o BatchMode=yes 127.0.0.1 true; do
        tries=$((tries + 1))
        [ "$tries" -lt 20 ] || { cat "$room/sshd-$port.log" >&2; exit 1; }
        sleep 0.5
    done
done

# ---- one process over all

python3 "$here/evidence.py" "$room/evidence" "$STORES" "${NODES:-24}"
cd "$room/evidence"
first=$(ls ./*.store | head -1)
mv "$first" "./-${first#./}"
second=$(ls ./*.store | sed -n 2p)
mv "$second" "./a second ${second#./}"
cd "$here"
"$BULWYNEF" status --program tally --directory "$room/evidence/nodes" "$room"/evidence/*.store > "$room/wanted" || [ $? = 3 ]
for word in exposed suspected trusted; do
    grep -q " $word\$" "$room/wanted" || { echo "try.sh: the evidence has no node that is $word" >&2; exit 1; }
done

# Makes the folder of a run: the directory, and the names of all stores.
begin() {
    mkdir "$1"
    cp "$room/evidence/nodes" "$1/nodes"
    ls "$room"/evidence/*.store > "$1/stores"
}

# ---- the same by three machines, of extracts

run="$room/run of extracts"
begin "$run"
echo --extract > "$run/how"
status=0
"$here/run.sh" "$room/hosts" "$SHARDS" "$run" --program tally > "$room/told" 2> "$room/errors" || status=$?
cmp "$room/wanted" "$room/told" || { cat "$room/errors" >&2; exit 1; }
[ "$status" = 3 ]
echo "equal: $(wc -l < "$room/told") nodes, of extracts; $(cat "$run"/counts/* | awk '{ items += $2 } END { print items }') items in all parts"

# ---- the same of whole segments, where one machine hangs once a quarter of the stores is split, and is killed once it has a task

run="$room/a run"
begin "$run"
(
    while [ "$(ls "$run/counts" 2> /dev/null | wc -l)" -lt $((STORES / 4)) ]; do sleep 0.05; done
    touch "$room/hang"
    while [ ! -e "$room/hung" ] && [ ! -e "$run/report" ]; do sleep 0.05; done
    end "$last"
    echo "try.sh: killed the sshd of port $last_port when $(ls "$run/counts" | wc -l) stores were split" >&2
) &
killer=$!
status=0
"$here/run.sh" "$room/hosts" "$SHARDS" "$run" --program tally > "$room/told" 2> "$room/errors" || status=$?
wait "$killer"
cmp "$room/wanted" "$room/told" || { cat "$room/errors" >&2; exit 1; }
[ "$status" = 3 ]
failed=$(awk 'NR > 1 && $7 != 0' "$run/split.log" "$run/status.log" | wc -l)
[ "$failed" -gt 0 ] || { echo "try.sh: no try failed, so the killed machine had none" >&2; exit 1; }
echo "equal: $(wc -l < "$room/told") nodes; $failed tries failed, and another machine did what they were to do"

# ---- what is lost is seen

part=$run/parts/1/7.1-of-$SHARDS
# Asks shard 1, which is to be refused with these words.
is_seen() {
    if "$here/status.sh" "$run" "$SHARDS" 1 --program tally 2> "$room/lost"; then echo "try.sh: not seen: $1" >&2; exit 1; fi
    grep -q "$1" "$room/lost" || { cat "$room/lost" >&2; exit 1; }
}
rm "$part"
is_seen 'is lost'
printf 'PRSTORE2\0\0\0\0\0\0\0\0' > "$part"
is_seen 'has 0 items and not'
"$here/split.sh" "$run" "$SHARDS" 7
printf '\377' | dd of="$part" bs=1 seek=$(($(wc -c < "$part") - 1)) conv=notrunc 2> /dev/null
is_seen 'has another SHA-256'
rm "$run/counts/7"
is_seen 'store 7 was not split'
"$here/split.sh" "$run" "$SHARDS" 7
"$here/status.sh" "$run" "$SHARDS" 1 --program tally
echo "a part that is lost or changed is seen, and a second split brings it back"

# ---- a run and a store in the folder where one is, with names that begin with a dash

cd "$room/evidence"
mkdir -p ./-run/parts ./-run/counts ./-run/told
cp nodes ./-run/nodes
ls ./-*.store | sed 's,^[.]/,,' > ./-run/stores
"$here/split.sh" -run 1 1
"$here/status.sh" -run 1 0 --program tally
"$here/report.sh" -run 1 > "$room/told" || [ $? = 3 ]
"$BULWYNEF" status --program tally --directory nodes ./-*.store > "$room/wanted" || [ $? = 3 ]
cmp "$room/wanted" "$room/told"
echo "equal: a run and a store whose names begin with a dash"
