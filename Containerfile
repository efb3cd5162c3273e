# An image in which `make check` passes. It has the Debian packages that docs/GATE.md lists; only `rt` is missing.
FROM debian:bookworm
RUN apt-get update && apt-get install -y --no-install-recommends binutils clang cmake dpkg g++ gcc gcc-aarch64-linux-gnu gdb git libc6-dev \
    libc6-dev-arm64-cross libgcc-12-dev make mandoc meson mypy nodejs pkgconf pyflakes3 python3 python3-hypothesis python3-pip qemu-user \
    shellcheck spin valgrind zsh && rm -rf /var/lib/apt/lists/*
# Whoever runs it need not own the clone.
RUN git config --system --add safe.directory '*'
WORKDIR /strm
CMD ["make", "check"]
