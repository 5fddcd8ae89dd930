#!/usr/bin/env bash
# Tries the packages in two machines, which are booted containers of Debian 12 with systemd. The first: both packages installed, configured, an
# office begun, served behind the packaged proxy with a certificate of its own, flooded, a trial office, a backup, pages, health, a standby,
# rebuilt, removed, purged, and installed again after both. The second: an office of the packages from before, upgraded while it runs, purged;
# an upgrade that is cut off, a downgrade; then the first one's backup restored there, and the restore killed at each step.
#
#     bench/package_trials.sh [FOLDER]
#
# FOLDER keeps the machines' files for a next time (500 MB, some minutes to make); without it they go at the end. A line tells of each
# trial; the status is 1 where one is not as wanted. As root, with debootstrap, systemd-container and what bin/package needs installed;
# lintian reads the packages where it is there.
set -eu
here=$(cd "$(dirname "$(readlink -f "$0")")/.." && pwd)
# The packages from before are those of this commit, whose office is the user `office`'s.
OLDER=068e29d2
NEEDED=adduser,curl,openssl,python3,python3-click,python3-jinja2,python3-rich,sqlite3,nginx-light,logrotate,rsync,systemd,systemd-sysv

# What both machines use.
both() {
  cat <<'INSIDE'
export DEBIAN_FRONTEND=noninteractive no_proxy=127.0.0.1,localhost
file=/var/lib/society/office.db settings=/etc/society/office.conf
o=http://127.0.0.1:23080/v1 s=https://localhost:8443 proxy=/etc/society/proxy
units="society society-proxy society-trial society-site society-health society-backup society-standby society-standby-files society-rebuild"
timers="society-backup.timer society-site.timer society-health.timer society-standby.timer society-standby-files.timer society-rebuild.timer"

# What a command prints has to have this text in it: `has NAME TEXT COMMAND ..`.
has() {
  local name=$1 text=$2 printed
  shift 2
  printed=$("$@" 2>&1) || true
  case $printed in
    *"$text"*) echo "as wanted: $name" ;;
    *) echo "NOT AS WANTED: $name: $printed" ;;
  esac
}
ask() { curl -sS --retry 30 --retry-delay 1 --retry-connrefused -H Expect: "$@"; }
front() { ask $o/senders/PB000000012; }
install_these() { apt-get install -y --no-install-recommends "$@"; }
fill_in() { printf 'SOCIETY=900\nTERRITORY=40\nNAME="EXAMPLE SOCIETY"\nPORT=23080\n' > $settings; }
book() { cat $file $file-wal | sha256sum; }
is_same_book() { [ "$(book)" = "$kept" ] && echo same; }
seconds() { sleep "$1"; shift; "$@"; }
ended() { systemctl start "$1" || journalctl -q -n 5 -u "$1"; systemctl show "$1" -p Result; }
newest() { ls -t /var/backups/society/*.db | head -n 1; }
exposure() { systemd-analyze security --no-pager "$1.service" | sed -n 's/.*Overall exposure level for .*: \([0-9.]*\) .*/\1/p'; }
at_most() { echo "$1" "$2" | awk '{ print ($1 != "" && $1 <= $2) ? "within" : $1 " is more than " $2 }'; }
dangling() { find /etc /usr /lib/systemd /var -xdev -xtype l -path '*society*' | grep . || echo none; }
send() { ask -o /dev/null -w '%{http_code}' -T /srv/$1.cwr $o/senders/PB000000012/transmissions/$1; }
INSIDE
}

# The first machine.
one() {
  cat <<'INSIDE'
has "installed" "Setting up society-office" install_these /srv/society_*.deb /srv/society-office_*.deb
has "no service is enabled" "9 disabled" sh -c "systemctl is-enabled society society-proxy society-trial $timers | sort | uniq -c"
for it in $units; do
  has "the unit $it" "status 0" sh -c "systemd-analyze verify --man=no $it.service; echo status \$?"
  # (a backup has to be root's, halts another's process, reads its files, and asks it at its port; what brings files to the standby has to be
  # root's too, who has the key to it, and goes to another machine)
  case $it in society-backup) most=2.3 ;; society-standby-files) most=1.9 ;; *) most=1.5 ;; esac
  echo "exposure of $it: $(exposure $it)" >> /srv/seen
  has "exposure of $it" within at_most "$(exposure $it)" $most
done
has "their timers" "status 0" sh -c "systemd-analyze verify --man=no $timers; echo status \$?"
has "its folder" "_society _society 750" stat -c '%U %G %a' /var/lib/society
has "the program is the one of the release" "OK" sh -c 'cd /usr/bin && sha256sum -c /usr/share/society/release/society.sha256'
has "not begun before it is configured" "has no SOCIETY" society-begin
systemctl start society
has "nor served: an empty society" "invalid value ''" seconds 1 journalctl -u society
fill_in
systemctl start society
has "nor served before it is begun" "society: database empty" seconds 2 journalctl -u society
systemctl stop society
has "begun" "begun: society 900, territory 40, EXAMPLE SOCIETY" society-begin
has "the file is the user's alone" "_society _society 600" stat -c '%U %G %a' $file
has "begun once only" "there is an office already" society-begin
systemctl --quiet enable --now society
has "served" '{"front":0,"held":[]}' front
has "a file of works" 201 send 1
has "dryrun" "accepted W1 FIRST SONG" /usr/share/doc/society/examples/dryrun /usr/share/doc/society/examples/first.cwr
kill -9 "$(systemctl show -p MainPID --value society)"
has "started again after a kill" '{"front":1,"held":[]}' seconds 3 front

has "no proxy without a certificate" "cannot load certificate" sh -c 'systemctl start society-proxy; journalctl -u society-proxy'
systemctl stop society-proxy
systemctl reset-failed society-proxy 2> /dev/null
sed -i 's/default 127.0.0.1:8080/default 127.0.0.1:23080/' $proxy/nginx.conf
(cd $proxy
 openssl req -x509 -newkey rsa:2048 -nodes -keyout office.key -out office.crt -days 30 -subj /CN=localhost -addext subjectAltName=DNS:localhost 2> /dev/null
 for user in office PB000000012; do echo "$user:$(openssl passwd -6 "secret of $user")" >> passwords; done
 chown root:society-proxy office.key passwords; chmod 640 office.key passwords; chmod 644 office.crt)
python3 -m http.server --bind 127.0.0.1 8443 > /dev/null 2>&1 &
other=$!
has "no proxy at a port that is taken" "Job for society-proxy.service failed" seconds 1 systemctl start society-proxy
kill $other
has "that is told" "bind() to 127.0.0.1:8443 failed" journalctl -q -u society-proxy
systemctl stop society-proxy
systemctl --quiet enable --now society-proxy
tls() { curl -sS --retry 20 --retry-connrefused --cacert $proxy/office.crt -u "$1:secret of $1" "${@:2}"; }
has "behind the proxy" '{"front":1,"held":[]}' tls PB000000012 $s/v1/senders/PB000000012
has "another's path" 403 tls PB000000012 -o /dev/null -w '%{http_code}' $s/v1/senders/PB000000034
has "headers" "X-Frame-Options: DENY" tls office -D - -o /dev/null $s/desk/
has "the page for staff" "<title>The office</title>" tls office $s/desk/
has "its senders, none yet" "[]" tls office $s/desk/senders.json
has "its faults" '"means"' tls office $s/desk/faults.json
has "as many files as it says" "16384" sh -c 'cat /proc/$(systemctl show -p MainPID --value society-proxy)/limits | grep "open files"'
has "logs are the proxy's alone" "society-proxy 600" stat -c '%U %a' /var/lib/society-proxy/access.log
has "logs are turned" "access.log.1" sh -c 'logrotate -f /etc/logrotate.d/society-proxy; ls /var/lib/society-proxy'
has "nginx goes on in the new ones" "GET /desk/" bash -c "sleep 1; $(declare -f tls); proxy=$proxy; tls office -o /dev/null $s/desk/; sleep 1; cat /var/lib/society-proxy/access.log"

flood() { for _ in $(seq "$1"); do printf 'GET /%s HTTP/1.0\r\n\r\n' none > /dev/tcp/127.0.0.1/8443; done; }
lines_of_proxy() { journalctl -q -o cat _SYSTEMD_UNIT=society-proxy.service | grep -c '"GET /none'; }
has "what is refused is told" 1 bash -c "$(declare -f flood lines_of_proxy); flood 1; sleep 1; lines_of_proxy"
has "no end of it fills the log" within bash -c "$(declare -f flood lines_of_proxy at_most); flood 5000; sleep 1; at_most \$(lines_of_proxy) 600"
has "the rest is counted" "Suppressed" seconds 61 bash -c "$(declare -f flood); flood 1; sleep 1; journalctl -q -t systemd-journald"
has "nor a file" "0 0" bash -c "grep -c /none /var/lib/society-proxy/access.log /var/lib/society-proxy/error.log | sed 's/.*://' | xargs"
has "reloaded" "200" bash -c "systemctl reload society-proxy && sleep 1 && $(declare -f tls) && proxy=$proxy && tls office -o /dev/null -w '%{http_code}' $s/desk/"

has "a backup by its unit, while the office runs" "Result=success" ended society-backup
has "who may read it" "root society-staff 640" stat -c '%U %G %a' "$(newest)"
has "and its folder" "root society-staff 750" stat -c '%U %G %a' /var/backups/society
has "it is sound" "sound; halted for" journalctl -q -u society-backup
has "who decides" "root society-staff 2770" stat -c '%U %G %a' /var/lib/society-decisions
has "and its lists" "root society-staff 660" stat -c '%U %G %a' /var/lib/society-decisions/void.txt
adduser --quiet --disabled-password --no-create-home --gecos '' anna && adduser --quiet anna society-staff
as() { runuser -u anna -- "$@"; }
backed_up() { systemctl start society-backup; }
for it in 1 2; do ask -o /dev/null -T /usr/share/society/examples/first.csv $o/returns/TV7/$it; done
backed_up
has "who is none of the staff decides nothing" "Permission denied" runuser -u nobody -- society-office void TV7/2 --why 'a wrong month'
has "one of the staff decides" "TV7/2: never to be paid" as society-office void TV7/2 --why 'a wrong month'
install -d -o anna /srv/orders
has "what is void is not proposed" '"returns":[["TV7",1]]' as sh -c "society-office propose \$(ls -t /var/backups/society/*.db | head -n 1) --amount 500 --output /srv/orders/order.json > /dev/null 2>&1; cat /srv/orders/order.json"
echo '{"amount":500,"cut":[["PB000000012",1]],"returns":[["TV7",2]]}' > /srv/orders/wrong.json
closing() { as society-office close /srv/orders/$1.json --office http://127.0.0.1:23080 --amount 500 --why 'asked by the board'; }
has "nor paid" "TV7/2 is void, by /var/lib/society-decisions/void.txt" closing wrong
has "a pool is closed, over the newest backup" "closed pool 1: 500 units of the PR, just as rehearsed" closing order
has "who has closed it, and why" "anna	closed pool 1: 500 units of the PR	asked by the board" cat /var/lib/society-decisions/journal.txt
backed_up
cp "$(newest)" /srv/backup.db && newest | sed 's/db$/tar/' | xargs -I {} cp {} /srv/backup.tar
has "a trial office over it" '{"front":1,"held":[]}' sh -c "systemctl start society-trial; curl -sS --retry 30 --retry-delay 1 --retry-connrefused http://127.0.0.1:8081/v1/senders/PB000000012"
has "behind the proxy too" '{"front":1,"held":[]}' tls PB000000012 https://localhost:8444/v1/senders/PB000000012
has "pages by their unit" "Result=success" ended society-site
has "the version is the package's" "version $(dpkg-query -W -f '${Version}' society-office)" society-office --version
has "words are completed" "plain,propose" bash -ic 'source /usr/share/bash-completion/completions/society-office; complete -p society-office
  COMP_WORDS="society-office prop" COMP_CWORD=1 _SOCIETY_OFFICE_COMPLETE=bash_complete society-office'
has "a page through the proxy" "text/html" tls office -o /dev/null -w '%{content_type}' $s/site/index.html
has "with its style" "text/css" tls office -o /dev/null -w '%{content_type}' $s/site/office.css
has "a sender's own statement" "<h1>Statement of PB000000012" bash -c "$(declare -f tls); proxy=$proxy; $(printf '%s' 'ask() { curl -sS -H Expect: "$@"; }'); o=$o
  ask -o /dev/null -T /usr/share/society/examples/first.csv $o/returns/RADIO1/1; ask -o /dev/null -T /usr/share/society/examples/first.json $o/pools/7
  systemctl start society-backup society-site; tls PB000000012 $s/statements/index.html"
has "who may read pages" "_society society-staff 750" stat -c '%U %G %a' /var/lib/society-site
has "the copy is gone" "No such file" ls /var/lib/society-site/copy.db
echo 'BACKUP_OPTIONS=--place /var/backups/society-staff' > /etc/default/society-office
has "the newest backup where staff look" "root society-staff 640" sh -c 'systemctl start society-backup; stat -c "%U %G %a" /var/backups/society-staff/copy.db'
echo 'HEALTH_OPTIONS=--office http://127.0.0.1:23080 --db /var/lib/society/office.db --backups /var/backups/society --certificate /etc/society/proxy/office.crt' > /etc/default/society-office
has "health by its unit" "Result=success" ended society-health
has "it looked at the files" "is what the office writes, and its log is whole" journalctl -q -u society-health
has "and at the memory of a start" "MemoryMax is 4,295 MB" journalctl -q -u society-health
journalctl -q -o cat -u society-health | grep '^good\|^look\|^WRONG' | tail -n 8 >> /srv/seen
cp -p $file /var/lib/society/moved && mv $file /var/lib/society/away && mv /var/lib/society/moved $file
has "health of a file that was moved away" "does not write" sh -c 'systemctl start society-health; journalctl -q -n 20 -u society-health'
has "and a backup of it" "does not write" sh -c 'systemctl start society-backup; journalctl -q -n 5 -u society-backup'
mv /var/lib/society/away $file
has "a backup with the office down" "Result=success" sh -c 'systemctl stop society; systemctl start society-backup; systemctl show society-backup -p Result'
systemctl start society

second() { ask http://127.0.0.1:8082/v1/senders/PB000000012; }
second_office() {
  systemd-run --quiet --unit=second --uid=_society --property=WorkingDirectory=/var/tmp /usr/bin/society serve --db /var/tmp/second.db --port 8082 \
    --connections 100000 --society 900 --territory 40 "--name=EXAMPLE SOCIETY"
}
put_by_proxy() { tls PB000000012 -o /dev/null -w '%{http_code}' -T "/srv/$1.cwr" $s/v1/senders/PB000000012/transmissions/$1; }
second_office
has "a standby, begun empty" '{"front":0,"held":[]}' second
has "what it lacks, by its unit" "Result=success" ended society-standby
has "it has all" '{"front":1,"held":[]}' second
has "the proxy may know it" "127.0.0.1:8082" ls /run/society-standby/http:
has "that is told" "has all that came until" journalctl -q -u society-standby
has "the mirror is on by a line" 201 bash -c "sed -i '/server_port .standby/,/}/s/default \"\"/default http:\/\/127.0.0.1:8082/' $proxy/nginx.conf; systemctl reload society-proxy; sleep 2
  $(declare -f tls put_by_proxy); proxy=$proxy; s=$s; put_by_proxy 2"
has "a put is mirrored" '{"front":2,"held":[]}' seconds 2 second
systemctl stop second
sed s/W1/W3/ /srv/1.cwr > /srv/3.cwr
has "nobody notices that it is away" 201 put_by_proxy 3
has "nor does its unit fail yet" "Result=success" ended society-standby
has "it tells what came since" "fronts of 1 sender (PB000000012 from 1 to 3)" journalctl -q -u society-standby
echo 'STANDBY_OPTIONS=--behind 0' > /etc/default/society-office
has "it fails where that is for longer than stated" "Result=exit-code" ended society-standby
echo 'HEALTH_OPTIONS=--office http://127.0.0.1:23080 --standby /var/lib/society-standby/state.json --minutes 0' > /etc/default/society-office
has "health tells it" "WRONG  standby" sh -c 'systemctl start society-health; journalctl -q -n 20 -u society-health'
second_office
rm /etc/default/society-office
has "back again" "Result=success" ended society-standby
has "it has all" '{"front":3,"held":[]}' second
has "of its copies the newest stays" 1 sh -c 'ls /var/lib/society-standby/*.db | wc -l'
mkdir /srv/standby /etc/systemd/system/society-standby-files.service.d
printf '[Service]\nReadWritePaths=/srv/standby\nCapabilityBoundingSet=CAP_CHOWN CAP_FOWNER CAP_DAC_OVERRIDE\nRestrictSUIDSGID=no\n' > /etc/systemd/system/society-standby-files.service.d/here.conf
systemctl daemon-reload
has "without a place nothing is brought" "Result=exit-code" ended society-standby-files
echo 'STANDBY_FILES=/srv/standby/' > /etc/default/society-office
has "what was decided is brought" "Result=success" ended society-standby-files
has "and the proxy's folder" "same" sh -c "diff -r /var/lib/society-decisions /srv/standby/var/lib/society-decisions && diff -r $proxy /srv/standby$proxy && echo same"
has "a standby that decides by itself" "never to be paid" society-office void TV7/9 --why x --decisions /srv/standby/var/lib/society-decisions
has "keeps what it has" "/srv/standby/ has decided by itself: void TV7/9" sh -c 'systemctl start society-standby-files; journalctl -q -n 5 -u society-standby-files'
rm /etc/default/society-office
systemctl stop second
has "another backup" "Result=success" ended society-backup
has "rebuilt by its unit" "Result=success" ended society-rebuild
has "that is told" "follows from what was sent: 3 files, 3 returns, 2 pools" journalctl -q -u society-rebuild

kept=$(book)
has "an upgrade tells what goes on as before" "systemctl restart society-proxy" install_these --reinstall /srv/society_*.deb
systemctl --quiet enable society-backup.timer
has "removed while all run" "Removing society" apt-get remove -y society society-office
has "they have stopped" "inactive inactive inactive" sh -c 'systemctl is-active society society-proxy society-trial | xargs'
has "settings stay" "SOCIETY=900" cat $settings
install_these /srv/society_*.deb /srv/society-office_*.deb > /srv/again 2>&1
has "installed again: what does not run is told" "the office does not run" cat /srv/again
has "nor the proxy" "the proxy does not run" cat /srv/again
has "nor a timer" "what is enabled does not run: systemctl start society-backup.timer" cat /srv/again
has "the same office" '{"front":3,"held":[]}' sh -c "systemctl start society; $(declare -f ask front); o=$o; front"
apt-get remove -y society society-office > /dev/null 2>&1
kept=$(book)
apt-get purge -y society society-office > /srv/purged 2>&1
has "purged: the book is told" "the book stays in /var/lib/society" cat /srv/purged
has "and the backups" "the backups stay in /var/backups/society" cat /srv/purged
has "the book is the same" same is_same_book
has "the backups are there" "office-" newest
has "settings are gone" "No such file" cat $settings
has "no link that leads nowhere" none dangling
has "what goes is told" "/var/lib/society-site is taken away" cat /srv/purged
has "what was decided stays" "TV7/2" cat /var/lib/society-decisions/void.txt
has "what was made of copies is gone" "No such file" ls /var/lib/society-site
has "also for a standby" "No such file" ls /var/lib/society-standby
has "installed after a purge" "Setting up society-office" install_these /srv/society_*.deb /srv/society-office_*.deb
fill_in
has "not begun anew" "there is an office already" society-begin
has "the book from before" '{"front":3,"held":[]}' sh -c "systemctl start society; $(declare -f ask front); o=$o; front"
has "its certificate and passwords too" 200 bash -c "sed -i 's/default 127.0.0.1:8080/default 127.0.0.1:23080/' $proxy/nginx.conf; systemctl start society-proxy
  $(declare -f tls); proxy=$proxy; tls PB000000012 -o /dev/null -w '%{http_code}' $s/v1/senders/PB000000012"
INSIDE
}

# The second machine.
two() {
  cat <<'INSIDE'
has "packages from before" "Setting up society-office" install_these /srv/older/society_*.deb /srv/older/society-office_*.deb
fill_in
has "begun by them" "begun: society 900" society-begin
systemctl --quiet enable --now society society-backup.timer society-site.timer society-health.timer
has "a file of works" 201 send 1
has "a backup by them" "Result=success" ended society-backup
kept=$(book)
has "upgraded while it runs" "the office runs the program of before" install_these /srv/society_*.deb /srv/society-office_*.deb
has "it runs on" '{"front":1,"held":[]}' front
has "the book is the same" same is_same_book
has "its owner stays" "office office 600" stat -c '%U %G %a' $file
has "all units are there" "9" sh -c "for it in $units; do systemctl cat \$it.service > /dev/null && echo \$it; done | wc -l"
has "still enabled" "enabled enabled enabled enabled" sh -c 'systemctl is-enabled society society-backup.timer society-site.timer society-health.timer | xargs'
has "started again" '{"front":1,"held":[]}' sh -c "systemctl restart society; $(declare -f ask front); o=$o; front"
has "as its owner" "office" sh -c 'ps -o user= -p "$(systemctl show -p MainPID --value society)" 2> /dev/null || stat -c %U /proc/$(systemctl show -p MainPID --value society)'
has "a backup by the new ones" "Result=success" ended society-backup
has "pages by the new ones" "Result=success" ended society-site
echo 'HEALTH_OPTIONS=--office http://127.0.0.1:23080 --db /var/lib/society/office.db --backups /var/backups/society' > /etc/default/society-office
has "health by the new ones" "Result=success" ended society-health
kept=$(systemctl stop society; book)
apt-get purge -y society society-office > /srv/purged 2>&1
has "purged: the book is told" "the book stays in /var/lib/society, and the user office" cat /srv/purged
has "the book is the same" same is_same_book
has "no link that leads nowhere" none dangling

forget() { apt-get purge -y society society-office > /dev/null 2>&1; rm -rf /var/lib/society /var/backups/society; deluser --quiet "$1"; }
forget office
has "older ones again" "Setting up society-office" install_these /srv/older/society_*.deb /srv/older/society-office_*.deb
fill_in
society-begin && systemctl --quiet enable --now society
dpkg --unpack /srv/society_*.deb /srv/society-office_*.deb > /dev/null 2>&1
systemctl daemon-reload; systemctl restart society 2> /dev/null
has "an upgrade that was cut off, and ended later, tells that the office is down" "the office does not run" dpkg --configure -a
systemctl reset-failed society
has "and then it starts" '{"front":0,"held":[]}' sh -c "systemctl start society; $(declare -f ask front); o=$o; front"
has "a downgrade" "Setting up society-office" install_these --allow-downgrades /srv/older/society_*.deb /srv/older/society-office_*.deb
has "the older program" '{"front":0,"held":[]}' sh -c "systemctl restart society; $(declare -f ask front); o=$o; front"
echo '# ours' | tee -a $proxy/nginx.conf >> /etc/default/society-office
install_these -o Dpkg::Options::=--force-confold /srv/society_*.deb /srv/society-office_*.deb > /srv/upgraded 2>&1
has "and the newer one again" "the office runs the program of before" cat /srv/upgraded
has "changed options stay, and that is told" "/etc/default/society-office stays as you changed it" cat /srv/upgraded
# (the older ones have no proxy, so a configuration of it that is another one comes with packages that are newer still)
dpkg-deb -R /srv/society_*.deb /srv/next && echo '# theirs' >> /srv/next$proxy/nginx.conf && sed -i 's/^Version: .*/&+next/' /srv/next/DEBIAN/control
dpkg-deb -b /srv/next /srv/next.deb > /dev/null
has "a changed configuration stays, and that is told" "$proxy/nginx.conf stays as you changed it" dpkg --force-confold --force-depends -i /srv/next.deb
has "it is as it was" "# ours" tail -n 1 $proxy/nginx.conf
has "over the same book" '{"front":0,"held":[]}' sh -c "systemctl restart society; $(declare -f ask front); o=$o; front"
forget office
useradd --system --gid nogroup _society
mkdir /var/lib/society
has "a user of that name, in another group, and a folder of root's" "Setting up society-office" install_these /srv/society_*.deb /srv/society-office_*.deb
has "the folder is that user's" "_society nogroup 750" stat -c '%U %G %a' /var/lib/society
forget _society
has "installed on a new machine" "Setting up society-office" install_these /srv/society_*.deb /srv/society-office_*.deb
fill_in
tar -C / -xpf /srv/backup.tar
has "what was decided comes with the backup" "1 line of void returns" society-office decisions
restore() { society-restore --from "$1" --db $file --port 23080 --sender PB000000012 --front "$2" 2>&1 | tee /srv/told; }
has "a backup of the first machine restored" "nothing was there before" restore /srv/backup.db 1
has "its owner" "_society _society 600" stat -c '%U %G %a' $file
has "it is told that no start starts it" "systemctl enable society" sh -c 'cat /srv/told'
systemctl --quiet enable society
has "served" '{"front":1,"held":[]}' front
has "nor is what is void paid there" "TV7/2 is void" sh -c "echo '{\"amount\":500,\"cut\":[[\"PB000000012\",1]],\"returns\":[[\"TV7\",2]]}' > /srv/wrong.json
  society-office close /srv/wrong.json --copy /srv/backup.db --office http://127.0.0.1:23080 --amount 500 --why x"
has "a further file" 201 send 2
has "restored over a running office" "what was there is in" restore /srv/backup.db 1
INSIDE
  killed
}

# Kills a restore before each program that it runs, while systemd has the service: the office that starts then has 2 files or 1, never none.
killed() {
  cat <<'INSIDE'
has "a further file" 201 send 2
systemctl stop society
rm -rf /srv/before && cp -a /var/lib/society /srv/before && rm -rf /srv/before/aside-*
mkdir -p /srv/killing
for name in cp mv rm sync chown chmod mktemp rmdir systemctl; do
  printf '#!/bin/bash\ncount=$(($(cat /srv/count) + 1)); echo $count > /srv/count\nif [ $count = "$(cat /srv/last)" ]; then echo %s > /srv/killed; kill -9 $PPID; exit 1; fi\nexec %s "$@"\n' \
    "$name" "$(command -v "$name")" > /srv/killing/$name
  chmod 755 /srv/killing/$name
done
fronts= step=0
while step=$((step + 1)); [ $step -lt 60 ]; do
  systemctl stop society
  systemctl reset-failed society 2> /dev/null
  rm -rf /var/lib/society/* /var/lib/society/.restoring* && cp -a /srv/before/. /var/lib/society/
  systemctl start society
  front > /dev/null 2>&1
  echo 0 > /srv/count; echo $step > /srv/last; rm -f /srv/killed
  # (the shell's own line on a program that was killed is not for the list of trials)
  { PATH=/srv/killing:$PATH restore /srv/backup.db 1; } > /dev/null 2>&1
  [ -e /srv/killed ] || break
  systemctl start society
  fronts+=$(front 2> /dev/null | sed 's/{"front":\([0-9]*\),.*/\1/')
done
echo "killed at $((step - 1)) steps, fronts then: $fronts" >> /srv/seen
has "killed at each step: the book from before, or the backup" "only 2 and 1" sh -c "echo $fronts | grep -q '^22222*11*2*1*$' && [ ${#fronts} = $((step - 1)) ] && [ $step -gt 20 ] && echo only 2 and 1; echo $fronts"
INSIDE
}

# Boots a machine over what was installed, which runs this script and ends: `machine NAME`.
machine() {
  local root=$folder/$1
  rm -rf "$root"
  cp -a "$folder/root" "$root"
  cp "$folder"/new/*.deb "$root/srv"
  cp -r "$folder/older" "$root/srv"
  cp "$here/examples/first.cwr" "$root/srv/1.cwr"
  sed s/NWR/REV/ "$here/examples/first.cwr" > "$root/srv/2.cwr"
  [ ! -e "$folder/backup.db" ] || cp "$folder/backup.db" "$folder/backup.tar" "$root/srv"
  { both && "$1"; } > "$root/srv/trials"
  printf '[Unit]\nAfter=multi-user.target\n[Service]\nType=oneshot\nExecStart=/bin/bash /srv/trials\nExecStopPost=/bin/systemctl poweroff --force\n%s\n%s\n' \
    StandardOutput=file:/srv/printed StandardError=inherit > "$root/etc/systemd/system/trials.service"
  mkdir -p "$root/etc/systemd/system/graphical.target.wants"
  ln -sf ../trials.service "$root/etc/systemd/system/graphical.target.wants/trials.service"
  systemd-nspawn --quiet --register=no --keep-unit --private-network -D "$root" --boot < /dev/null > "$folder/boot-$1.log" 2>&1 || true
  [ ! -e "$root/srv/backup.db" ] || cp "$root/srv/backup.db" "$root/srv/backup.tar" "$folder"
  sed "s/^/$1: /" "$root/srv/printed"
  sed "s/^/$1 saw: /" "$root/srv/seen" 2> /dev/null || true
}

folder=$(realpath -m "${1:-$(mktemp -d)}")
[ -n "${1:-}" ] || trap 'rm -rf "$folder"' EXIT
mkdir -p "$folder"
if [ ! -d "$folder/root" ]; then
  debootstrap --variant=minbase --include=$NEEDED bookworm "$folder/making" > "$folder/making.log"
  mv "$folder/making" "$folder/root"
fi
if [ ! -d "$folder/older" ]; then
  git clone -q "$here" "$folder/checkout"
  git -C "$folder/checkout" checkout -q $OLDER
  "$folder/checkout/bin/package" "$folder/older" > /dev/null
  rm -rf "$folder/checkout"
fi
rm -rf "$folder/new" "$folder/backup.db"
"$here/bin/package" "$folder/new" > /dev/null
{
  if command -v lintian > /dev/null; then
    said=$(lintian --allow-root --fail-on none "$folder"/new/*.deb 2>&1)
    if [ -z "$said" ]; then echo "as wanted: lintian says nothing"; else echo "NOT AS WANTED: lintian: $said"; fi
  fi
  machine one
  machine two
} | tee "$folder/printed"
rm -rf "$folder/one" "$folder/two"
grep -q 'as wanted: killed at each step' "$folder/printed" && ! grep -q 'NOT AS WANTED' "$folder/printed"
