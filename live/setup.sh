#!/bin/sh
# setup.sh [FOLDER]: installs the databases and their drivers from the packages of the system, and starts a server of each with all that is its in the folder,
# where one is named. `live/servers.py stop FOLDER` stops these two.
set -e
apt-get update
DEBIAN_FRONTEND=noninteractive apt-get install -y postgresql mariadb-server python3-psycopg2 python3-pymysql
[ -z "$1" ] || /usr/bin/python3 "$(dirname "$0")/servers.py" start "$1"
