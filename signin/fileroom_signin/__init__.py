"""Asks a directory (LDAP, Active Directory) whether a login is right, for nginx's auth_request.

It has no file of passwords, reads of the front the rosters' names alone, and keeps a right password for a minute, as a
hash by a key of its own process. docs/RUNNING.md, Logins by a directory, has how it is set up.
"""
