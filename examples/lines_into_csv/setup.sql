CREATE FOREIGN DATA WRAPPER csv HANDLER csv
CREATE FOREIGN DATA WRAPPER json HANDLER jsonl
CREATE SERVER files FOREIGN DATA WRAPPER csv OPTIONS (source 'files')
CREATE SERVER docs FOREIGN DATA WRAPPER json OPTIONS (source 'docs')
CREATE USER MAPPING FOR PUBLIC SERVER files OPTIONS (mode 'write')
CREATE USER MAPPING FOR PUBLIC SERVER docs
CREATE FOREIGN TABLE bought (no integer NOT NULL, who text, paid integer) SERVER files OPTIONS (filename 'bought.csv', header 'true')
CREATE FOREIGN TABLE events (no integer, who text, what text, paid integer) SERVER docs OPTIONS (filename 'events.jsonl')
