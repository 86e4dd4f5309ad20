# Installs Sparrow, and takes it away again. The program is the one that ./sparrow runs.

PREFIX = /usr/local
DESTDIR =

place = $(DESTDIR)$(PREFIX)
lib = $(place)/lib/sparrow
share = $(place)/share/sparrow
documents = $(place)/share/doc/sparrow
manual = $(place)/share/man/man1
completions = $(place)/share/bash-completion/completions

for_users = README.md docs/LANGUAGE.md docs/REPORT.md docs/REAL_CODE.md

define remove
	rm -rf "$(lib)" "$(share)" "$(documents)"
	rm -f "$(place)/bin/sparrow" "$(manual)/sparrow.1" "$(completions)/sparrow"
endef

.PHONY: all check install uninstall

all:
	./sparrow --program

check:
	bash tests/all.sh

# No file of another release stays. Those who may not write there need the compiled modules.
install: all
	$(remove)
	install -d "$(place)/bin" "$(lib)" "$(share)" "$(documents)" "$(manual)" "$(completions)"
	install -m 755 "$$(./sparrow --program)" "$(lib)/sparrow"
	./sparrow --version >"$(lib)/version"
	cp -R include source "$(share)"
	find "$(share)" -name __pycache__ -prune -exec rm -rf {} +
	python3 -m compileall -q -s "$(DESTDIR)" "$(share)/source"
	chmod -R u=rwX,go=rX "$(lib)" "$(share)"
	install -m 755 sparrow "$(place)/bin/sparrow"
	for document in $(for_users); do \
		tools/document "$$document" >"$(documents)/$${document##*/}" || exit 1; \
	done
	install -m 644 LICENSE tests/report/report.schema.json "$(documents)"
	chmod 644 "$(documents)"/*
	install -m 644 man/sparrow.1 "$(manual)/sparrow.1"
	install -m 644 completion/sparrow.bash "$(completions)/sparrow"

uninstall:
	$(remove)
