CREATE FOREIGN DATA WRAPPER csv HANDLER csv
CREATE FOREIGN DATA WRAPPER json HANDLER jsonl
CREATE SERVER files FOREIGN DATA WRAPPER csv OPTIONS (source 'files')
CREATE SERVER docs FOREIGN DATA WRAPPER json OPTIONS (source 'docs')
CREATE USER MAPPING FOR PUBLIC SERVER files
CREATE USER MAPPING FOR PUBLIC SERVER docs
CREATE FOREIGN TABLE people (id integer NOT NULL, name text) SERVER files OPTIONS (filename 'people.csv', header 'true')
CREATE FOREIGN TABLE visits (no integer NOT NULL, who integer, page text) SERVER docs OPTIONS (filename 'visits.jsonl')
