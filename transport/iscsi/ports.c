/* See ports.h. */
#include "ports.h"

#include <stdlib.h>
#include <string.h>

enum { TRANSPORT_ID_HEADER = 4, ISID_SEPARATOR = 5, ISID_LENGTH = 6, MOST_NUMBER_DIGITS = 2 };

static char *put_hexadecimal(char *end, unsigned char byte)
{
    static const char digits[] = "0123456789abcdef";

    *end++ = digits[byte >> 4];
    *end++ = digits[byte & 15];
    return end;
}

/* Each command has one. */
void port_read(struct port *port, const char *transport_id)
{
    const char *name = transport_id + TRANSPORT_ID_HEADER;
    const unsigned char *isid = (const unsigned char *)name + strlen(name) + 1 + ISID_SEPARATOR;
    char *end = port->text;
    int at;

    for (; *name; name++)
        if (*name > ' ' && *name < '\x7F' && *name != '\\') {
            *end++ = *name;
        } else {
            end = strcpy(end, "\\x") + 2;
            end = put_hexadecimal(end, (unsigned char)*name);
        }
    end = strcpy(end, ",i,0x") + ISID_SEPARATOR;
    for (at = 0; at < ISID_LENGTH; at++)
        end = put_hexadecimal(end, isid[at]);
    *end = '\0';
}

void port_clear(struct port_table *table, int numbers)
{
    memset(table, 0, sizeof *table);
    table->numbers = numbers;
}

int port_read_number(const struct port_table *table, const char **text)
{
    size_t length = strspn(*text, "0123456789");
    int number;

    if (length == 0 || length > MOST_NUMBER_DIGITS || (length > 1 && **text == '0'))
        return NO_NUMBER;
    number = atoi(*text);
    if (number >= table->numbers)
        return NO_NUMBER;
    *text += length;
    return number;
}

int port_number(const struct port_table *table, const struct port *port)
{
    int number;

    for (number = 0; number < table->numbers; number++)
        if (table->last_use[number] && strcmp(table->ports[number].text, port->text) == 0)
            return number;
    return NO_NUMBER;
}

void port_use(struct port_table *table, int number)
{
    table->last_use[number] = ++table->uses;
}

int port_take_number(struct port_table *table, const struct port *port, uint64_t kept)
{
    int number, least = NO_NUMBER;

    for (number = 0; number < table->numbers; number++)
        if (!(kept >> number & 1)
            && (least == NO_NUMBER || table->last_use[number] < table->last_use[least]))
            least = number;
    if (least != NO_NUMBER) {
        table->ports[least] = *port;
        port_use(table, least);
    }
    return least;
}

void port_give_up_number(struct port_table *table, int number)
{
    table->ports[number].text[0] = '\0';
    table->last_use[number] = 0;
}

/* The place of a port among the refused ones, or MOST_REFUSED. */
static unsigned find_refused(const struct refused_ports *refused, const struct port *port)
{
    unsigned at = 0;

    while (at < MOST_REFUSED && strcmp(refused->ports[at].text, port->text) != 0)
        at++;
    return at;
}

int port_refuse(struct refused_ports *refused, const struct port *port)
{
    if (find_refused(refused, port) < MOST_REFUSED)
        return 0;
    refused->ports[refused->next] = *port;
    refused->next = (refused->next + 1) % MOST_REFUSED;
    return 1;
}

void port_accept(struct refused_ports *refused, const struct port *port)
{
    unsigned at = find_refused(refused, port);

    if (at < MOST_REFUSED)
        refused->ports[at].text[0] = '\0';
}
