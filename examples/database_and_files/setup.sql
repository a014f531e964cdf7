CREATE FOREIGN DATA WRAPPER sqlite HANDLER sqlite
CREATE FOREIGN DATA WRAPPER csv HANDLER csv
CREATE FOREIGN DATA WRAPPER json HANDLER jsonl
CREATE SERVER db FOREIGN DATA WRAPPER sqlite OPTIONS (source 'db')
CREATE SERVER files FOREIGN DATA WRAPPER csv OPTIONS (source 'files')
CREATE SERVER docs FOREIGN DATA WRAPPER json OPTIONS (source 'docs')
CREATE USER MAPPING FOR PUBLIC SERVER db OPTIONS (mode 'write')
CREATE USER MAPPING FOR PUBLIC SERVER files
CREATE USER MAPPING FOR PUBLIC SERVER docs
CREATE FOREIGN TABLE people (id integer NOT NULL, name text, active boolean) SERVER db OPTIONS (table 'people')
CREATE FOREIGN TABLE booked (no integer NOT NULL, person integer, amount integer) SERVER db OPTIONS (table 'orders')
CREATE FOREIGN TABLE sales (no integer, person integer, amount integer) SERVER files OPTIONS (filename 'sales.csv')
CREATE FOREIGN TABLE visits (no integer, who integer, page text) SERVER docs OPTIONS (filename 'visits.jsonl')
