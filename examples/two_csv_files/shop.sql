CREATE FOREIGN DATA WRAPPER csv HANDLER csv
CREATE SERVER files FOREIGN DATA WRAPPER csv OPTIONS (source 'files')
CREATE USER MAPPING FOR PUBLIC SERVER files
CREATE FOREIGN TABLE people (id integer NOT NULL, name text, city text) SERVER files OPTIONS (filename 'people.csv', header 'true')
CREATE FOREIGN TABLE sales (no integer, person integer, amount integer) SERVER files OPTIONS (filename 'sales.csv')
