/*
 * Relays packets between swd and a CMSIS-DAP probe of version 2, which takes them over bulk endpoints, by libusb-1.0:
 *
 *   cc -O2 -o dap_bulk dap_bulk.c -lusb-1.0
 *   mkfifo there back
 *   ./dap_bulk <there >back &
 *   swd info --probe=back,there --framed
 *
 * With an argument it takes the probe with this serial number, else the first one. On standard input and output a
 * packet has its length before it, two bytes, the first one least significant. A probe that doesn't answer, or that is
 * pulled out, answers with a packet of no bytes, at which swd ends the connection. Not tried on a device: the check of
 * these examples has fake_libusb.c in place of the library.
 */
#define _POSIX_C_SOURCE 200809L
#include <libusb-1.0/libusb.h>
#include <stdint.h>
#include <stdio.h>
#include <string.h>
#include <unistd.h>

enum {
	LONGEST = 1024, /* bytes of a packet */
	ANSWER_MS = 10000,
	LEFT_OVER_MS = 20,
	VENDOR_CLASS = 0xff
};

struct probe {
	libusb_device_handle *handle;
	int number; /* of the interface */
	uint8_t in;
	uint8_t out;
	int size; /* bytes that a reply has at most: a transfer of so many ends without a shorter one */
};

/* Whether a string of the device has a text in it. */
static int string_has(libusb_device_handle *handle, uint8_t index, const char *text)
{
	unsigned char found[128];
	int length = index ? libusb_get_string_descriptor_ascii(handle, index, found, sizeof found - 1) : 0;
	if (length <= 0)
		return 0;
	found[length] = 0;
	return strstr((const char *)found, text) != NULL;
}

/* Takes the first endpoint out and the first one in, if they are bulk endpoints: further ones carry a trace. */
static int has_pair(const struct libusb_interface_descriptor *it, struct probe *probe)
{
	probe->in = probe->out = 0;
	for (int at = 0; at < it->bNumEndpoints; at++) {
		const struct libusb_endpoint_descriptor *end = &it->endpoint[at];
		uint8_t *place = end->bEndpointAddress & LIBUSB_ENDPOINT_IN ? &probe->in : &probe->out;
		if ((end->bmAttributes & 3) == LIBUSB_TRANSFER_TYPE_BULK && !*place)
			*place = end->bEndpointAddress;
		if (end->bEndpointAddress == probe->in)
			probe->size = end->wMaxPacketSize & 0x7ff;
	}
	return probe->in && probe->out && probe->size > 0 && probe->size <= LONGEST;
}

/* Takes the interface of the open device that is one of CMSIS-DAP version 2. */
static int has_interface(libusb_device *device, struct probe *probe)
{
	struct libusb_config_descriptor *config;
	int found = 0;
	if (libusb_get_active_config_descriptor(device, &config))
		return 0;
	for (int at = 0; at < config->bNumInterfaces && !found; at++) {
		const struct libusb_interface_descriptor *it = config->interface[at].altsetting;
		if (config->interface[at].num_altsetting < 1 || it->bInterfaceClass != VENDOR_CLASS)
			continue;
		probe->number = it->bInterfaceNumber;
		found = string_has(probe->handle, it->iInterface, "CMSIS-DAP") && has_pair(it, probe);
	}
	libusb_free_config_descriptor(config);
	return found;
}

/* Opens a device, if it is the probe that is looked for. */
static int is_probe(libusb_device *device, const char *serial, struct probe *probe)
{
	struct libusb_device_descriptor about;
	if (libusb_get_device_descriptor(device, &about) || libusb_open(device, &probe->handle))
		return 0;
	if ((!serial || string_has(probe->handle, about.iSerialNumber, serial)) && has_interface(device, probe)
		&& !libusb_claim_interface(probe->handle, probe->number))
		return 1;
	libusb_close(probe->handle);
	return 0;
}

static int open_probe(const char *serial, struct probe *probe)
{
	libusb_device **devices;
	int found = 0;
	ssize_t count = libusb_get_device_list(NULL, &devices);
	for (ssize_t at = 0; at < count && !found; at++)
		found = is_probe(devices[at], serial, probe);
	if (count >= 0)
		libusb_free_device_list(devices, 1);
	return found;
}

/* Drops the replies that a session before left. */
static void drop_left_over(const struct probe *probe)
{
	unsigned char reply[LONGEST];
	int length;
	while (!libusb_bulk_transfer(probe->handle, probe->in, reply, probe->size, &length, LEFT_OVER_MS))
		;
}

/* Keeps the size of a packet, where this is the reply to DAP_Info ff. */
static void keep_size(struct probe *probe, const unsigned char *packet, const unsigned char *reply, int length)
{
	if (length == 4 && packet[0] == 0 && packet[1] == 0xff && reply[0] == 0 && reply[1] == 2) {
		int size = reply[2] | reply[3] << 8;
		if (size > 0 && size <= LONGEST)
			probe->size = size;
	}
}

/* Sends a packet, and takes the reply. Returns its length; 0 if there is none. */
static int exchange(struct probe *probe, unsigned char *packet, int length, unsigned char *reply)
{
	int sent = 0, got = 0;
	int failed = libusb_bulk_transfer(probe->handle, probe->out, packet, length, &sent, ANSWER_MS);
	if (!failed && sent == length)
		failed = libusb_bulk_transfer(probe->handle, probe->in, reply, probe->size, &got, ANSWER_MS);
	if (failed)
		fprintf(stderr, "dap_bulk: the probe doesn't answer: %s\n", libusb_error_name(failed));
	else
		keep_size(probe, packet, reply, got);
	return failed ? 0 : got;
}

/* Reads so many bytes of standard input. */
static int read_whole(unsigned char *bytes, int count)
{
	for (int at = 0; at < count;) {
		ssize_t got = read(STDIN_FILENO, bytes + at, (size_t)(count - at));
		if (got <= 0)
			return 0;
		at += (int)got;
	}
	return 1;
}

/* Writes so many bytes to standard output. */
static int write_whole(const unsigned char *bytes, int count)
{
	for (int at = 0; at < count;) {
		ssize_t put = write(STDOUT_FILENO, bytes + at, (size_t)(count - at));
		if (put <= 0)
			return 0;
		at += (int)put;
	}
	return 1;
}

/* Relays packets up to the end of standard input. Returns the status of the program. */
static int relay(struct probe *probe)
{
	unsigned char packet[2 + LONGEST], reply[2 + LONGEST];
	while (read_whole(packet, 2)) {
		int length = packet[0] | packet[1] << 8;
		if (length < 1 || length > LONGEST || !read_whole(packet + 2, length))
			return 1;
		int got = exchange(probe, packet + 2, length, reply + 2);
		reply[0] = (unsigned char)(got & 0xff);
		reply[1] = (unsigned char)(got >> 8);
		if (!write_whole(reply, 2 + got) || !got)
			return 1;
	}
	return 0;
}

int main(int argc, char **argv)
{
	struct probe probe;
	if (libusb_init(NULL)) {
		fprintf(stderr, "dap_bulk: libusb can't be used here\n");
		return 2;
	}
	if (!open_probe(argc > 1 ? argv[1] : NULL, &probe)) {
		fprintf(stderr, "dap_bulk: no probe of CMSIS-DAP version 2 that may be opened\n");
		libusb_exit(NULL);
		return 2;
	}
	drop_left_over(&probe);
	int status = relay(&probe);
	libusb_release_interface(probe.handle, probe.number);
	libusb_close(probe.handle);
	libusb_exit(NULL);
	return status;
}
