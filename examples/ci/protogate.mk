# `make protogate` gates a folder against a release. Copy it beside your Makefile, write there `include protogate.mk`, and name your
# folder and the release. It needs protogate-ci on the path.
PROTO_FOLDER ?= proto
PROTO_RELEASE ?= v1.4
# What protogate.ini at the top of the repository said at the release may be left out here (`--base HEAD`: what it says now). With an empty release
# the file in the work tree says the releases and the folder too.
# A type that is removed or broken on purpose: `--skip TYPE`. Source files with custom options, or that import google/protobuf/*.proto, need no
# option, but protoc on the path (Debian: protobuf-compiler libprotobuf-dev): a file that protogate refuses is gated as the set that protoc makes
# of it. `--no-with-protoc` turns that off.
PROTO_OPTIONS ?=

.PHONY: protogate
protogate:
	set -f; protogate-ci $(PROTO_OPTIONS) $(if $(PROTO_RELEASE),'$(PROTO_RELEASE)' '$(PROTO_FOLDER)',--settings protogate.ini)
