# Begins an office to practise with, and the proxy before it, for a user whose password is `secret`: bench/paste.py reads it in, where the
# documents for publishers and stations say so. In a shell at the top of a checkout in which `society` is installed:
#
#     . bench/practice.sh USER      makes the folder practice and goes into it
#     practice_ends                 stops all of it, and takes the folder away
# shellcheck shell=bash
mkdir practice
cd practice || return
export HOME=$PWD no_proxy=127.0.0.1,localhost
society serve --db office.db --port 8080 --connections 1000 --society 900 --territory 40 --name 'EXAMPLE SOCIETY' > office.log &
server=$!
mkdir proxy
cp ../examples/nginx.conf proxy
cp -r ../examples/desk proxy
openssl req -x509 -newkey rsa:2048 -nodes -keyout proxy/office.key -out proxy/office.crt -days 30 \
    -subj /CN=localhost -addext subjectAltName=DNS:localhost 2> /dev/null
echo "$1:$(openssl passwd -6 secret)" > proxy/passwords
nginx -p "$PWD/proxy" -c "$PWD/proxy/nginx.conf" -g "user $(id -un);" 2> /dev/null
curl -s -o /dev/null --retry 9 --retry-connrefused http://127.0.0.1:8080/v1/senders/PB000000012
export CURL_CA_BUNDLE=$PWD/proxy/office.crt
echo "machine localhost login $1 password secret" > ~/.netrc

practice_ends() {
  kill "$server"
  wait "$server"
  nginx -p "$PWD/proxy" -c "$PWD/proxy/nginx.conf" -s quit 2> /dev/null
  cd ..
  rm -rf practice
}
