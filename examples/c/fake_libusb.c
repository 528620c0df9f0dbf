/*
 * As much of libusb-1.0 as dap_bulk.c calls. The second of its two devices is a probe, whose second interface is that
 * of CMSIS-DAP version 2. Packets go to the socket that DAP_SOCKET names, a datagram each; without it the probe answers
 * each packet with the packet. A transfer that isn't complete at the most bytes or at a shorter packet goes on, and
 * times out.
 */
#define _POSIX_C_SOURCE 200809L
#include <libusb-1.0/libusb.h>
#include <poll.h>
#include <stdlib.h>
#include <string.h>
#include <sys/socket.h>
#include <sys/un.h>
#include <unistd.h>

enum { SERIAL = 3, NAME = 4, TIMED_OUT = -7, NO_DEVICE = -4, NO_MEMORY = -11 };

struct libusb_device {
	int is_probe;
};

struct libusb_device_handle {
	int is_probe;
	int line; /* a socket, -1 without one */
	unsigned char held[1024];
	int length; /* of what is held */
};

static struct libusb_device devices[2] = { { 0 }, { 1 } };
static struct libusb_device_handle handles[2];

static const struct libusb_endpoint_descriptor in_and_out[3] = {
	{ 0x02, LIBUSB_TRANSFER_TYPE_BULK, 64 }, { 0x83, LIBUSB_TRANSFER_TYPE_BULK, 64 },
	{ 0x84, LIBUSB_TRANSFER_TYPE_BULK, 64 },
};
static const struct libusb_interface_descriptor settings[2] = {
	{ 0, 0, 3, SERIAL, NULL }, { 1, 3, 0xff, NAME, in_and_out },
};
static const struct libusb_interface interfaces[2] = { { &settings[0], 1 }, { &settings[1], 1 } };
static struct libusb_config_descriptor configs[2] = { { 1, interfaces }, { 2, interfaces } };

int libusb_init(libusb_context **context)
{
	(void)context;
	return 0;
}

void libusb_exit(libusb_context *context)
{
	(void)context;
}

const char *libusb_error_name(int error)
{
	return error == TIMED_OUT ? "LIBUSB_ERROR_TIMEOUT" : "LIBUSB_ERROR_NO_DEVICE";
}

ssize_t libusb_get_device_list(libusb_context *context, libusb_device ***list)
{
	(void)context;
	*list = (libusb_device **)calloc(3, sizeof **list);
	if (!*list)
		return NO_MEMORY;
	(*list)[0] = &devices[0];
	(*list)[1] = &devices[1];
	return 2;
}

void libusb_free_device_list(libusb_device **list, int unref_devices)
{
	(void)unref_devices;
	free(list);
}

int libusb_get_device_descriptor(libusb_device *device, struct libusb_device_descriptor *descriptor)
{
	descriptor->iSerialNumber = device->is_probe ? SERIAL : 0;
	return 0;
}

int libusb_get_active_config_descriptor(libusb_device *device, struct libusb_config_descriptor **config)
{
	*config = &configs[device->is_probe];
	return 0;
}

void libusb_free_config_descriptor(struct libusb_config_descriptor *config)
{
	(void)config;
}

/* The socket of the probe, or -1. */
static int connected(void)
{
	struct sockaddr_un address;
	const char *name = getenv("DAP_SOCKET");
	int line = name ? socket(AF_UNIX, SOCK_SEQPACKET, 0) : -1;
	if (line < 0)
		return -1;
	memset(&address, 0, sizeof address);
	address.sun_family = AF_UNIX;
	strncpy(address.sun_path, name, sizeof address.sun_path - 1);
	return connect(line, (struct sockaddr *)&address, sizeof address) ? -1 : line;
}

int libusb_open(libusb_device *device, libusb_device_handle **handle)
{
	*handle = &handles[device->is_probe];
	(*handle)->is_probe = device->is_probe;
	(*handle)->line = device->is_probe ? connected() : -1;
	(*handle)->length = 0;
	return 0;
}

void libusb_close(libusb_device_handle *handle)
{
	if (handle->line >= 0)
		close(handle->line);
}

int libusb_get_string_descriptor_ascii(libusb_device_handle *handle, uint8_t index, unsigned char *data, int length)
{
	const char *found = index == SERIAL ? "SIM0001" : "Simulated CMSIS-DAP v2";
	if (!handle->is_probe || length < 32)
		return -1;
	strcpy((char *)data, found);
	return (int)strlen(found);
}

int libusb_claim_interface(libusb_device_handle *handle, int number)
{
	return handle->is_probe && number == 1 ? 0 : NO_DEVICE;
}

int libusb_release_interface(libusb_device_handle *handle, int number)
{
	(void)handle;
	return number == 1 ? 0 : NO_DEVICE;
}

/* Takes a reply of the probe. Returns its length, or an error. */
static int reply_of(libusb_device_handle *handle, unsigned int timeout)
{
	struct pollfd ready;
	ssize_t got = handle->length;
	ready.fd = handle->line;
	ready.events = POLLIN;
	if (handle->line >= 0 && poll(&ready, 1, (int)timeout) == 1) {
		got = recv(handle->line, handle->held, sizeof handle->held, 0);
		if (got <= 0)
			return NO_DEVICE;
	}
	handle->length = 0;
	return got > 0 ? (int)got : TIMED_OUT;
}

int libusb_bulk_transfer(libusb_device_handle *handle, unsigned char endpoint, unsigned char *data, int length,
	int *transferred, unsigned int timeout)
{
	*transferred = 0;
	if (endpoint == in_and_out[1].bEndpointAddress) {
		int got = reply_of(handle, timeout);
		if (got < 0 || (got < length && got % in_and_out[1].wMaxPacketSize == 0))
			return got < 0 ? got : TIMED_OUT;
		memcpy(data, handle->held, (size_t)(got < length ? got : length));
		*transferred = got < length ? got : length;
		return 0;
	}
	if (endpoint != in_and_out[0].bEndpointAddress || length > (int)sizeof handle->held)
		return NO_DEVICE;
	if (handle->line >= 0 && send(handle->line, data, (size_t)length, MSG_NOSIGNAL) != length)
		return NO_DEVICE;
	memcpy(handle->held, data, (size_t)length);
	handle->length = handle->line >= 0 ? 0 : length;
	*transferred = length;
	return 0;
}
