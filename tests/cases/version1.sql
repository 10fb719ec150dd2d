-- A room of version 1, as its program left it: statements that it ran to make the tables, and rows that it wrote.
-- Session 0123.. of ann is that of a folder /plans and a document /plans/a in two pieces, read as request 4 of slot 0.
-- Session fedc.. of bob has replies of other kinds; its slot 7 is at the last number, which was set by hand.
-- Session 0000.. is closed; in it ann made /shut, whose list is her own, and /shut/b.
-- version1.db is the file that `sqlite3 version1.db < version1.sql` makes of it, version1.lists what `report` of the
-- program of version 1 wrote of it. crates/test_tables has the same statements.
CREATE TABLE room (one INTEGER PRIMARY KEY CHECK (one = 1), version INTEGER NOT NULL, next INTEGER NOT NULL) STRICT;
CREATE TABLE node (id INTEGER PRIMARY KEY, parent INTEGER REFERENCES node(id), name TEXT NOT NULL, kind INTEGER NOT NULL CHECK (kind = 0 OR kind = 1), owner TEXT NOT NULL, grp TEXT NOT NULL, aclflag INTEGER NOT NULL CHECK (aclflag >= 0 AND aclflag <= 7), UNIQUE (parent, name)) STRICT;
CREATE TABLE entry (node INTEGER NOT NULL REFERENCES node(id) ON DELETE CASCADE, place INTEGER NOT NULL, type INTEGER NOT NULL CHECK (type = 0 OR type = 1), flag INTEGER NOT NULL, mask INTEGER NOT NULL, who TEXT NOT NULL, PRIMARY KEY (node, place)) STRICT;
CREATE TABLE doc (node INTEGER PRIMARY KEY REFERENCES node(id) ON DELETE CASCADE, bytes BLOB NOT NULL) STRICT;
CREATE TABLE session (sid TEXT PRIMARY KEY NOT NULL, owner TEXT NOT NULL, slots INTEGER NOT NULL, open INTEGER NOT NULL CHECK (open = 0 OR open = 1)) STRICT;
CREATE TABLE slot (sid TEXT NOT NULL REFERENCES session(sid), slot INTEGER NOT NULL, seq INTEGER NOT NULL, request BLOB NOT NULL, reply BLOB NOT NULL, PRIMARY KEY (sid, slot)) STRICT;
INSERT INTO room VALUES (1, 1, 6);
INSERT INTO node VALUES (1, NULL, '', 1, 'ann', 'eng', 0);
INSERT INTO node VALUES (2, 1, 'plans', 1, 'ann', 'eng', 1);
INSERT INTO node VALUES (3, 2, 'a', 0, 'ann', 'eng', 1);
INSERT INTO node VALUES (4, 1, 'shut', 1, 'ann', 'eng', 2);
INSERT INTO node VALUES (5, 4, 'b', 0, 'ann', 'eng', 1);
INSERT INTO entry VALUES (1, 0, 0, 3, 2033663, 'OWNER@');
INSERT INTO entry VALUES (1, 1, 0, 3, 1179817, 'GROUP@');
INSERT INTO entry VALUES (2, 0, 0, 131, 2033663, 'OWNER@');
INSERT INTO entry VALUES (2, 1, 0, 131, 1179817, 'GROUP@');
INSERT INTO entry VALUES (3, 0, 0, 128, 2033663, 'OWNER@');
INSERT INTO entry VALUES (3, 1, 0, 128, 1179817, 'GROUP@');
INSERT INTO entry VALUES (5, 0, 0, 128, 3, 'bob');
INSERT INTO entry VALUES (5, 1, 0, 128, 2033663, 'OWNER@');
INSERT INTO entry VALUES (5, 2, 0, 128, 1, 'EVERYONE@');
INSERT INTO entry VALUES (4, 0, 1, 64, 1, 'staff');
INSERT INTO entry VALUES (4, 1, 0, 11, 3, 'bob');
INSERT INTO entry VALUES (4, 2, 0, 3, 2033663, 'OWNER@');
INSERT INTO entry VALUES (4, 3, 0, 1, 1, 'EVERYONE@');
INSERT INTO doc VALUES (3, x'686921');
INSERT INTO doc VALUES (5, x'');
INSERT INTO session VALUES ('0123456789abcdef0123456789abcdef', 'ann', 3, 1);
INSERT INTO session VALUES ('fedcba9876543210fedcba9876543210', 'bob', 16, 1);
INSERT INTO session VALUES ('00000000000000000000000000000000', 'ann', 1, 0);
-- ann 0/4 {"cmd":"READ","path":"/plans/a"}
--   {"code":0,"data":"aGkh"}
INSERT INTO slot VALUES ('0123456789abcdef0123456789abcdef', 0, 4, x'7b22636d64223a2252454144222c2270617468223a222f706c616e732f61227d', x'7b22636f6465223a302c2264617461223a2261476b68227d');
-- ann 1/1 {"cmd":"LIST","path":"/"}
--   {"code":0,"names":[["plans","folder"]]}
INSERT INTO slot VALUES ('0123456789abcdef0123456789abcdef', 1, 1, x'7b22636d64223a224c495354222c2270617468223a222f227d', x'7b22636f6465223a302c226e616d6573223a5b5b22706c616e73222c22666f6c646572225d5d7d');
-- ann 2/1 {"cmd":"MKDIR","path":"/plans"}
--   {"code":4,"error":"EXIST"}
INSERT INTO slot VALUES ('0123456789abcdef0123456789abcdef', 2, 1, x'7b22636d64223a224d4b444952222c2270617468223a222f706c616e73227d', x'7b22636f6465223a342c226572726f72223a224558495354227d');
-- bob 15/2 {"cmd":"GETLIST","path":"/plans"}
--   {"aclflag":1,"code":0,"entries":[{"flag":131,"mask":2033663,"type":0,"who":"OWNER@"},{"flag":131,"mask":1179817,"type":0,"who":"GROUP@"}]}
INSERT INTO slot VALUES ('fedcba9876543210fedcba9876543210', 15, 2, x'7b22636d64223a224745544c495354222c2270617468223a222f706c616e73227d', x'7b2261636c666c6167223a312c22636f6465223a302c22656e7472696573223a5b7b22666c6167223a3133312c226d61736b223a323033333636332c2274797065223a302c2277686f223a224f574e455240227d2c7b22666c6167223a3133312c226d61736b223a313137393831372c2274797065223a302c2277686f223a2247524f555040227d5d7d');
-- bob 7/4294967295 {"cmd":"STAT","path":"/"}
--   {"aclflag":0,"code":0,"group":"eng","kind":"folder","owner":"ann","size":1}
INSERT INTO slot VALUES ('fedcba9876543210fedcba9876543210', 7, 4294967295, x'7b22636d64223a2253544154222c2270617468223a222f227d', x'7b2261636c666c6167223a302c22636f6465223a302c2267726f7570223a22656e67222c226b696e64223a22666f6c646572222c226f776e6572223a22616e6e222c2273697a65223a317d');
-- bob 6/1 {"cmd":"APPEND","data":"","path":"/plans/a"}
--   {"bit":4,"code":5,"error":"ACCESS","path":"/plans/a"}
INSERT INTO slot VALUES ('fedcba9876543210fedcba9876543210', 6, 1, x'7b22636d64223a22415050454e44222c2264617461223a22222c2270617468223a222f706c616e732f61227d', x'7b22626974223a342c22636f6465223a352c226572726f72223a22414343455353222c2270617468223a222f706c616e732f61227d');
-- bob 0/1 {"cmd":"STAT","path":"/plans/ä"}
--   {"code":1,"error":"NOENT"}
INSERT INTO slot VALUES ('fedcba9876543210fedcba9876543210', 0, 1, x'7b22636d64223a2253544154222c2270617468223a222f706c616e732fc3a4227d', x'7b22636f6465223a312c226572726f72223a224e4f454e54227d');
