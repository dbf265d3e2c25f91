/*
 * An expander for the tools of smp_utils, from stored responses: loaded before
 * libsmputils (LD_PRELOAD), it opens a folder as the device. A REPORT GENERAL
 * request is answered with the folder's file "general", a DISCOVER request of
 * phy N with "phyN", or with PHY DOES NOT EXIST where there is no such file, and
 * every request is appended to its file "requests". The structures are those of
 * scsi/smp_lib.h.
 */
#include <stdint.h>
#include <stdio.h>
#include <string.h>

struct target {
    char device_name[256];
    int subvalue;
    unsigned char sas_addr[8];
    int interface_selector;
    int opened;
    int fd;
    void *vp;
};

struct exchange {
    int request_len;
    unsigned char *request;
    int max_response_len;
    unsigned char *response;
    int act_response_len;
    int transport_err;
};

int smp_initiator_open(const char *device, int subvalue, const char *parameters,
                       uint64_t address, struct target *target, int verbose)
{
    (void)subvalue, (void)parameters, (void)address, (void)verbose;
    memset(target, 0, sizeof *target);
    strncpy(target->device_name, device, sizeof target->device_name - 1);
    target->opened = 1;
    return 0;
}

int smp_initiator_close(struct target *target)
{
    target->opened = 0;
    return 0;
}

int smp_send_req(const struct target *target, struct exchange *exchange, int verbose)
{
    char path[400];
    const unsigned char *request = exchange->request;
    (void)verbose;
    snprintf(path, sizeof path, "%s/requests", target->device_name);
    FILE *file = fopen(path, "ab");
    if (!file)
        return -1;
    fwrite(request, 1, exchange->request_len, file);
    fclose(file);
    memset(exchange->response, 0, exchange->max_response_len);
    exchange->response[0] = 0x41;
    exchange->response[1] = request[1];
    exchange->act_response_len = -1;
    if (request[1] == 0x90)
        return 0;
    if (request[1] == 0x00)
        snprintf(path, sizeof path, "%s/general", target->device_name);
    else
        snprintf(path, sizeof path, "%s/phy%d", target->device_name, request[9]);
    file = fopen(path, "rb");
    if (!file) {
        exchange->response[2] = 0x10;
        return 0;
    }
    exchange->act_response_len =
        fread(exchange->response, 1, exchange->max_response_len, file);
    fclose(file);
    return 0;
}
