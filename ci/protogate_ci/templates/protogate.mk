# `make protogate` gates folders against a release. Copy it beside your Makefile, write there `include protogate.mk`, and name the address and the
# checksum of the package that tools/release.sh makes. It is fetched once, into a hidden folder, and nothing is installed.
PROTOGATE_PACKAGE ?=
PROTOGATE_SHA256 ?=
PROTO_RELEASE ?= v1.4
PROTO_FOLDERS ?= proto
PROTO_OPTIONS ?=
PROTOGATE_FOLDER := .protogate/$(PROTOGATE_SHA256)

.PHONY: protogate
protogate: $(PROTOGATE_FOLDER)/whole
	set -f; PATH="$(CURDIR)/$(PROTOGATE_FOLDER)/usr/bin:$$PATH" protogate-ci $(PROTO_OPTIONS) \
	    $(if $(PROTO_RELEASE),'$(PROTO_RELEASE)' $(PROTO_FOLDERS),--settings protogate.ini)

$(PROTOGATE_FOLDER)/whole:
	mkdir -p $(PROTOGATE_FOLDER)
	curl --fail --silent --show-error --location --proto '=https' --output $(PROTOGATE_FOLDER)/protogate.deb -- '$(PROTOGATE_PACKAGE)'
	printf '%s  %s\n' '$(PROTOGATE_SHA256)' $(PROTOGATE_FOLDER)/protogate.deb | sha256sum --check --strict --quiet
	dpkg-deb --extract $(PROTOGATE_FOLDER)/protogate.deb $(PROTOGATE_FOLDER)
	touch $@
