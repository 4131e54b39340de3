#!/usr/bin/env bash
# On a processor other than x86-64: installs what builds C and Rust for x86-64 and what runs it emulated, from
# Debian 12's packages, where it is missing.
set -eu

missing=""
command -v x86_64-linux-gnu-gcc >/dev/null || missing="$missing gcc-x86-64-linux-gnu libc6-dev-amd64-cross"
command -v qemu-x86_64 >/dev/null || missing="$missing qemu-user"
[ -e /lib64/ld-linux-x86-64.so.2 ] || missing="$missing libc6:amd64"
[ -x /usr/bin/rustc ] || missing="$missing rustc-web"
[ -d /usr/lib/rustlib/x86_64-unknown-linux-gnu ] || missing="$missing libstd-rust-web-dev:amd64"
[ -n "$missing" ] || exit 0
become=""
[ "$(id -u)" = 0 ] || become=sudo
$become dpkg --add-architecture amd64
$become apt-get update -q >&2
# shellcheck disable=SC2086
$become apt-get install -q -y --no-install-recommends $missing >&2
