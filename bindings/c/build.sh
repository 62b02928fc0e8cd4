#!/usr/bin/env bash
# Proves and builds the planner for C and C++: target/buyerspruce/ then has buyerspruce.h and libbuyerspruce.a, to copy. Needs only the kit.
set -eu
cd "$(dirname "$0")/../.."
(cd crates/buyerspruce && rt lib)
mkdir -p target/buyerspruce
cp bindings/c/buyerspruce.h crates/buyerspruce/out/libbuyerspruce.a target/buyerspruce/
echo "target/buyerspruce: buyerspruce.h libbuyerspruce.a"
