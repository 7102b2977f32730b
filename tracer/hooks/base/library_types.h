/* The headers of what library.table names, and what they may lack. */
#include <arpa/inet.h>
#include <dirent.h>
#include <err.h>
#include <execinfo.h>
#include <fenv.h>
#include <fnmatch.h>
#include <getopt.h>
#include <glob.h>
#include <grp.h>
#include <iconv.h>
#include <ifaddrs.h>
#include <langinfo.h>
#include <libintl.h>
#include <locale.h>
#include <malloc.h>
#include <math.h>
#include <mqueue.h>
#include <net/if.h>
#include <netdb.h>
#include <netinet/in.h>
#include <poll.h>
#include <pwd.h>
#include <regex.h>
#include <sched.h>
#include <search.h>
#include <sys/epoll.h>
#include <sys/eventfd.h>
#include <sys/msg.h>
#include <sys/select.h>
#include <sys/sem.h>
#include <sys/statfs.h>
#include <sys/sysinfo.h>
#include <sys/time.h>
#include <sys/timerfd.h>
#include <sys/times.h>
#include <sys/uio.h>
#include <sys/utsname.h>
#include <syslog.h>
#include <termios.h>
#include <uchar.h>
#include <utime.h>
#include <wctype.h>
#include <wordexp.h>

/* Of C++: std::ostream, and what std::string begins with. */
struct ostream;
struct string {
    const char *at;
    size_t size;
};

/* Of the mathematical library, which a program may be linked without. */
extern int signgam __attribute__((weak));
