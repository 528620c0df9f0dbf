/*
 * Stands in for libhidapi under OpenOCD's own driver of CMSIS-DAP: built as a shared library and preloaded, it leads to
 * a simulated probe at the SOCK_SEQPACKET socket that DAP_SOCKET names. A datagram is a report without its number.
 */
#define _POSIX_C_SOURCE 200809L
#include <poll.h>
#include <stdlib.h>
#include <string.h>
#include <sys/socket.h>
#include <sys/un.h>
#include <unistd.h>
#include <wchar.h>

struct hid_device_info {
	const char *path;
	unsigned short vendor_id, product_id;
	const wchar_t *serial_number;
	unsigned short release_number;
	const wchar_t *manufacturer_string, *product_string;
	unsigned short usage_page, usage;
	int interface_number;
	struct hid_device_info *next;
};

typedef struct hid_device {
	int line;
} hid_device;

static hid_device device = { -1 };
static struct hid_device_info about = {
	"simulated", 0x1209, 1, L"SIM0001", 0x100, L"swd", L"simulated CMSIS-DAP probe", 0xff00, 1, 0, NULL,
};

int hid_init(void)
{
	return 0;
}

int hid_exit(void)
{
	return 0;
}

struct hid_device_info *hid_enumerate(unsigned short vendor, unsigned short product)
{
	(void)vendor;
	(void)product;
	return &about;
}

void hid_free_enumeration(struct hid_device_info *list)
{
	(void)list;
}

static hid_device *connected(void)
{
	struct sockaddr_un address;
	const char *name = getenv("DAP_SOCKET");
	if (!name)
		return NULL;
	memset(&address, 0, sizeof address);
	address.sun_family = AF_UNIX;
	strncpy(address.sun_path, name, sizeof address.sun_path - 1);
	device.line = socket(AF_UNIX, SOCK_SEQPACKET, 0);
	return connect(device.line, (struct sockaddr *)&address, sizeof address) ? NULL : &device;
}

hid_device *hid_open_path(const char *path)
{
	(void)path;
	return connected();
}

hid_device *hid_open(unsigned short vendor, unsigned short product, const wchar_t *serial)
{
	(void)vendor;
	(void)product;
	(void)serial;
	return connected();
}

void hid_close(hid_device *of)
{
	close(of->line);
}

int hid_write(hid_device *of, const unsigned char *bytes, size_t count)
{
	return send(of->line, bytes + 1, count - 1, MSG_NOSIGNAL) < 0 ? -1 : (int)count;
}

int hid_read_timeout(hid_device *of, unsigned char *bytes, size_t count, int milliseconds)
{
	struct pollfd ready = { of->line, POLLIN, 0 };
	int found = poll(&ready, 1, milliseconds);
	return found <= 0 ? found : (int)recv(of->line, bytes, count, 0);
}

int hid_read(hid_device *of, unsigned char *bytes, size_t count)
{
	return hid_read_timeout(of, bytes, count, -1);
}

int hid_set_nonblocking(hid_device *of, int how)
{
	(void)of;
	(void)how;
	return 0;
}

const wchar_t *hid_error(hid_device *of)
{
	(void)of;
	return L"the probe went away";
}

static int copied(wchar_t *to, size_t room, const wchar_t *from)
{
	wcsncpy(to, from, room);
	if (room)
		to[room - 1] = 0;
	return 0;
}

int hid_get_manufacturer_string(hid_device *of, wchar_t *to, size_t room)
{
	(void)of;
	return copied(to, room, about.manufacturer_string);
}

int hid_get_product_string(hid_device *of, wchar_t *to, size_t room)
{
	(void)of;
	return copied(to, room, about.product_string);
}

int hid_get_serial_number_string(hid_device *of, wchar_t *to, size_t room)
{
	(void)of;
	return copied(to, room, about.serial_number);
}

int hid_get_indexed_string(hid_device *of, int index, wchar_t *to, size_t room)
{
	(void)of;
	(void)index;
	return copied(to, room, L"");
}
