CREATE FOREIGN DATA WRAPPER csv HANDLER csv
CREATE FOREIGN DATA WRAPPER json HANDLER jsonl
CREATE SERVER files FOREIGN DATA WRAPPER csv OPTIONS (source 'files')
CREATE SERVER docs FOREIGN DATA WRAPPER json OPTIONS (source 'docs')
CREATE USER MAPPING FOR PUBLIC SERVER files
CREATE USER MAPPING FOR PUBLIC SERVER docs
CREATE FOREIGN TABLE stock (part integer, pieces integer) SERVER files OPTIONS (filename 'stock.csv')
CREATE FOREIGN TABLE events (id integer, what text OPTIONS (member 'kind')) SERVER docs OPTIONS (filename 'events.jsonl')
