/* As much of libusb-1.0 as dap_bulk.c uses: fake_libusb.c has a probe behind it. */
#ifndef FAKE_LIBUSB_H
#define FAKE_LIBUSB_H
#include <stdint.h>
#include <sys/types.h>

#ifdef __cplusplus
extern "C" {
#endif

enum { LIBUSB_ENDPOINT_IN = 0x80, LIBUSB_TRANSFER_TYPE_BULK = 2 };

typedef struct libusb_context libusb_context;
typedef struct libusb_device libusb_device;
typedef struct libusb_device_handle libusb_device_handle;

struct libusb_device_descriptor {
	uint8_t iSerialNumber;
};

struct libusb_endpoint_descriptor {
	uint8_t bEndpointAddress;
	uint8_t bmAttributes;
	uint16_t wMaxPacketSize;
};

struct libusb_interface_descriptor {
	uint8_t bInterfaceNumber;
	uint8_t bNumEndpoints;
	uint8_t bInterfaceClass;
	uint8_t iInterface;
	const struct libusb_endpoint_descriptor *endpoint;
};

struct libusb_interface {
	const struct libusb_interface_descriptor *altsetting;
	int num_altsetting;
};

struct libusb_config_descriptor {
	uint8_t bNumInterfaces;
	const struct libusb_interface *interface;
};

int libusb_init(libusb_context **context);
void libusb_exit(libusb_context *context);
const char *libusb_error_name(int error);
ssize_t libusb_get_device_list(libusb_context *context, libusb_device ***list);
void libusb_free_device_list(libusb_device **list, int unref_devices);
int libusb_get_device_descriptor(libusb_device *device, struct libusb_device_descriptor *descriptor);
int libusb_get_active_config_descriptor(libusb_device *device, struct libusb_config_descriptor **config);
void libusb_free_config_descriptor(struct libusb_config_descriptor *config);
int libusb_open(libusb_device *device, libusb_device_handle **handle);
void libusb_close(libusb_device_handle *handle);
int libusb_get_string_descriptor_ascii(libusb_device_handle *handle, uint8_t index, unsigned char *data, int length);
int libusb_claim_interface(libusb_device_handle *handle, int number);
int libusb_release_interface(libusb_device_handle *handle, int number);
int libusb_bulk_transfer(libusb_device_handle *handle, unsigned char endpoint, unsigned char *data, int length,
	int *transferred, unsigned int timeout);

#ifdef __cplusplus
}
#endif
#endif
