# make install     puts the program, fedq-shell, fedq-setup, fedq-gateway, their Python, manual pages, documents and completions below PREFIX (after DESTDIR)
# make uninstall   takes them away
# The pages for makers (docs/makers, CONTRIBUTING.md) are not installed: in the pages that are, a link to one is its text, and the links of README lead to where they are installed.
# Nothing is built here: dist/fedq is the program. `./check --program` proves and builds it anew, and dist/rebuild puts it in dist/.
PREFIX = /usr/local
DESTDIR =
INSTALL = install
to = $(DESTDIR)$(PREFIX)
bash = $(to)/share/bash-completion/completions
zsh = $(to)/share/zsh/site-functions
# The folders of the Python package, as they are in python/.
rooms = $(patsubst python/%/,%,$(sort $(dir $(wildcard python/fedq/*.py python/fedq/*/*.py))))

.PHONY: help install uninstall

help:
	@sed -n '1,3s/^# //p' Makefile

install:
	@$(INSTALL) -d '$(to)/bin' '$(to)/share/man/man1' '$(to)/share/doc/fedq' '$(bash)' '$(zsh)'
	@$(INSTALL) -m 755 dist/fedq fedq-shell fedq-setup fedq-gateway '$(to)/bin'
	@$(INSTALL) -m 644 docs/*.1 '$(to)/share/man/man1'
	@$(INSTALL) -m 644 README.md CHANGELOG.md LICENSE docs/*.md '$(to)/share/doc/fedq'
	@sed -i -E 's#\[([^]]*)\]\((\.\./|docs/)?((makers|examples|tests)/[^)]*|[a-z-]*\.1|CONTRIBUTING\.md)\)#\1#g; s#\]\((docs|\.\.)/#](#g' '$(to)/share/doc/fedq'/*.md
	@$(INSTALL) -m 644 completions/fedq.bash '$(bash)/fedq'
	@for tool in fedq-shell fedq-setup fedq-gateway; do ln -sf fedq '$(bash)'/$$tool || exit 1; done
	@$(INSTALL) -m 644 completions/_fedq '$(zsh)/_fedq'
	@for room in $(rooms); do $(INSTALL) -d '$(to)/share/fedq/python'/$$room && \
	    $(INSTALL) -m 644 python/$$room/*.py '$(to)/share/fedq/python'/$$room || exit 1; done

uninstall:
	@rm -f '$(to)/bin/fedq' '$(to)/bin/fedq-shell' '$(to)/bin/fedq-setup' '$(to)/bin/fedq-gateway' '$(zsh)/_fedq'
	@rm -f '$(bash)/fedq' '$(bash)/fedq-shell' '$(bash)/fedq-setup' '$(bash)/fedq-gateway' $(patsubst docs/%,'$(to)/share/man/man1/%',$(wildcard docs/*.1))
	@rm -rf '$(to)/share/doc/fedq' '$(to)/share/fedq'
