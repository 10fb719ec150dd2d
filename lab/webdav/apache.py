"""Apache's mod_dav before a folder: what WebDAV takes beside it. It is of Debian's `apache2-bin`, and no service."""
import base64
import hashlib
import os
import shutil

from served import WithWorkers, free_port, started_here, wait_for_port

PROGRAM, MODULES = "/usr/sbin/apache2", "/usr/lib/apache2/modules"
NAMES = ("mpm_event", "authn_core", "authn_file", "authz_core", "authz_user", "auth_basic", "socache_shmcb", "ssl",
         "mime", "dav", "dav_fs")
CONF = """
ServerRoot {folder}
PidFile {folder}/pid
ServerName localhost
Listen 127.0.0.1:{port}
User www-data
Group www-data
ErrorLog {folder}/errors
TypesConfig /dev/null
DavLockDB {folder}/locks/all
MaxKeepAliveRequests 0
SSLEngine on
SSLCertificateFile {cert}
SSLCertificateKeyFile {key}
SSLSessionCache shmcb:{folder}/tls(512000)
DocumentRoot {folder}/dav
<Directory {folder}/dav>
    Dav On
    AuthType Basic
    AuthName rooms
    AuthUserFile {folder}/users
    Require valid-user
</Directory>
"""


class Apache:
    """A folder at / by TLS, for one login."""

    def __init__(self, folder, user, password, cert, key):
        self.port = free_port()
        for it in "dav", "locks":
            os.makedirs(os.path.join(folder, it))
            shutil.chown(os.path.join(folder, it), "www-data")
        with open(os.path.join(folder, "users"), "w") as file:
            file.write(f"{user}:{{SHA}}{base64.b64encode(hashlib.sha1(password.encode()).digest()).decode()}\n")
        conf = os.path.join(folder, "conf")
        with open(conf, "w") as file:
            file.writelines(f"LoadModule {it}_module {MODULES}/mod_{it}.so\n" for it in NAMES)
            file.write(CONF.format(folder=folder, port=self.port, cert=cert, key=key))
        self.server = WithWorkers([PROGRAM, "-f", conf, "-DFOREGROUND"])
        started_here.append(self.server)
        if not wait_for_port(self.port, self.server):
            raise RuntimeError(f"Apache ended with status {self.server.returncode}")
