#!/usr/bin/env bash
# Has real programs write logs, and keeps of them what the examples need.
#
#     sudo ./make.sh FOLDER
#
# It needs nginx, rsyslogd, systemd-journald, Redis, strace and Python 3. NGINX_PROGRAM, RSYSLOGD_PROGRAM and
# JOURNALD_PROGRAM name other places of the first three. A client asks nginx three times, on 127.0.0.1 alone, while
# strace looks at it. Redis is asked twice, while its MONITOR tells what comes. And web asks app three times, and both
# tell a daemon of it: once rsyslogd, which writes a file of RFC 3164 for web and one of RFC 5424 for app, and once
# systemd-journald. All runs in a room of its own (unshare), and what was started is stopped. The samples of Zeek, OTLP
# and Jaeger are none of these: they were written by hand.
set -euo pipefail
if [ -z "${IN_ROOM:-}" ]; then
    IN_ROOM=1 exec unshare --mount --uts "$(realpath "$0")" "$(realpath "${1:?a folder for the logs}")"
fi
to=$1 here=$(dirname "$0") room=$(mktemp -d)
trap 'kill $(jobs -p) 2>/dev/null || true; rm -rf "$room"' EXIT
hostname lab
cd "$room"

cat > nginx.conf << NGINX
daemon off; master_process off; pid $room/nginx.pid; error_log $room/error.log;
events { worker_connections 64; }
http {
    client_body_temp_path $room/a; proxy_temp_path $room/b; fastcgi_temp_path $room/c; uwsgi_temp_path $room/d; scgi_temp_path $room/e;
    log_format traced '\$msec \$request_time \$http_x_request_id "\$request" \$status';
    access_log $room/gate.log traced;
    access_log $room/access.log combined;
    server { listen 127.0.0.1:18080; location / { add_header X-Request-Id \$http_x_request_id; return 200 "ok\n"; } }
}
NGINX
"${NGINX_PROGRAM:-nginx}" -c "$room/nginx.conf" -p "$room" &
nginx=$!
sleep 2
# (-e trace=network and close: the sockets alone, without what Python reads)
strace -f -ttt -T -yy -s 200 -e trace=network,close -o calls.strace python3 "$here/asking.py" gate 18080
grep -a 'TCP:\|socket(AF_INET' calls.strace > "$to/client.strace"
kill $nginx
cp gate.log access.log "$to"

TZ=UTC redis-server --port 18379 --bind 127.0.0.1 --save "" --dir "$room" --logfile "$room/redis.log" &
redis=$!
sleep 2
redis-cli -p 18379 MONITOR > monitor.log &
monitor=$!
sleep 1
redis-cli -p 18379 SET cart:7f3a 2
redis-cli -p 18379 GET cart:7f3a
sleep 1
kill $monitor
kill $redis
wait $redis || true
cp redis.log monitor.log "$to"

cat > rsyslog.conf << RSYSLOG
global(workDirectory="$room" localHostname="lab")
module(load="imuxsock" SysSock.Use="off")
input(type="imuxsock" Socket="$room/log" CreatePath="on")
template(name="earlier" type="string"
    string="%timegenerated:::date-rfc3164%.%timegenerated:::date-subseconds% %HOSTNAME% %syslogtag%%msg:::sp-if-no-1st-sp%%msg:::drop-last-lf%\n")
if \$programname == "web" then action(type="omfile" file="$room/web.log" template="earlier")
else action(type="omfile" file="$room/app.log" template="RSYSLOG_SyslogProtocol23Format")
RSYSLOG
${RSYSLOGD_PROGRAM:-rsyslogd} -n -f rsyslog.conf -i "$room/rsyslogd.pid" &
rsyslogd=$!
sleep 2
python3 "$here/asking.py" syslog "$room/log"
sleep 1
kill $rsyslogd
wait $rsyslogd || true
cp web.log app.log "$to"

mkdir -p /run/log /run/systemd/journal /var/log/journal
for folder in /run/log /run/systemd/journal /var/log/journal; do
    mount -t tmpfs none $folder
done
"${JOURNALD_PROGRAM:-/lib/systemd/systemd-journald}" &
journald=$!
sleep 2
python3 "$here/asking.py" syslog /run/systemd/journal/dev-log
sleep 1
for name in web app; do
    journalctl -t $name -o json --output-fields=MESSAGE,SYSLOG_IDENTIFIER,_HOSTNAME,_SOURCE_REALTIME_TIMESTAMP > "$to/$name.json"
done
kill $journald
wait $journald || true
cd /
umount /run/log /run/systemd/journal /var/log/journal
