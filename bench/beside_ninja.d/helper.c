/* bh: what the commands of graphs.py run, which builds it by `gcc -O2 -static`.
 *
 *   bh cc [flags] -MF DEP -o OUT -c SRC
 *                             a stand-in for a C++ compiler: SRC holds the line
 *                             "SEED COUNT HEADERS"; writes OUT and a depfile that
 *                             names SRC and COUNT of the HEADERS headers
 *   bh ar OUT IN..            a stand-in for ar and ld: OUT gets the number of INs
 *                             and the sum of their sizes
 */
#define _GNU_SOURCE
#include <errno.h>
#include <fcntl.h>
#include <stdio.h>
#include <stdlib.h>
#include <string.h>
#include <sys/stat.h>
#include <unistd.h>

static void die(const char *what, const char *path)
{
	fprintf(stderr, "bh: %s %s: %s\n", what, path, strerror(errno));
	exit(1);
}

static void put(int fd, const char *p, size_t n)
{
	while (n) {
		ssize_t k = write(fd, p, n);
		if (k < 0) die("write", "");
		p += k; n -= (size_t)k;
	}
}

static int ar(int argc, char **argv)
{
	char buf[64];
	unsigned long sum = 0;
	struct stat st;
	for (int i = 3; i < argc; i++) {
		if (stat(argv[i], &st)) die("stat", argv[i]);
		sum += (unsigned long)st.st_size;
	}
	int out = open(argv[2], O_WRONLY | O_CREAT | O_TRUNC, 0644);
	if (out < 0) die("open", argv[2]);
	put(out, buf, (size_t)sprintf(buf, "%d %lu\n", argc - 3, sum));
	return 0;
}

static int cc(int argc, char **argv)
{
	const char *o = 0, *dep = 0, *src = 0;
	for (int i = 2; i + 1 < argc; i++) {
		if (!strcmp(argv[i], "-o")) o = argv[++i];
		else if (!strcmp(argv[i], "-MF")) dep = argv[++i];
		else if (!strcmp(argv[i], "-c")) src = argv[++i];
		else if (!strcmp(argv[i], "-MT")) ++i;
	}
	if (!o || !src) { fprintf(stderr, "bh: cc: no -o or -c\n"); return 1; }
	char text[256];
	int in = open(src, O_RDONLY);
	if (in < 0) die("open", src);
	ssize_t k = read(in, text, sizeof text - 1);
	if (k < 0) die("read", src);
	text[k] = 0;
	close(in);
	unsigned seed = 0, count = 0, headers = 0;
	sscanf(text, "%u %u %u", &seed, &count, &headers);
	if (dep) {
		static char buf[1 << 20];
		size_t n = (size_t)sprintf(buf, "%s: %s", o, src);
		/* a third of the headers are the common ones, the rest spread */
		unsigned long long x = seed * 2654435761u + 12345;
		for (unsigned i = 0; i < count && headers; i++) {
			unsigned h;
			if (i < count / 3) h = i;
			else {
				x = x * 6364136223846793005ull + 1442695040888963407ull;
				h = (unsigned)((x >> 33) % headers);
			}
			n += (size_t)sprintf(buf + n, " \\\n include/d%u/header_%u.h", h / 100, h);
			if (n > sizeof buf - 200) break;
		}
		buf[n++] = '\n';
		int fd = open(dep, O_WRONLY | O_CREAT | O_TRUNC, 0644);
		if (fd < 0) die("open", dep);
		put(fd, buf, n);
		close(fd);
	}
	int out = open(o, O_WRONLY | O_CREAT | O_TRUNC, 0644);
	if (out < 0) die("open", o);
	put(out, text, (size_t)k);
	return 0;
}

int main(int argc, char **argv)
{
	if (argc >= 3 && !strcmp(argv[1], "ar")) return ar(argc, argv);
	if (argc >= 3 && !strcmp(argv[1], "cc")) return cc(argc, argv);
	fprintf(stderr, "bh: cc|ar\n");
	return 2;
}
