/* The VTIMEZONEs of libical: `cc libical.c -o libical -lical && ./libical > libical.zones` (libical-dev) */
#include <libical/ical.h>
#include <stdio.h>

int main(void)
{
    icalarray *zones = icaltimezone_get_builtin_timezones();
    for (size_t place = 0; place < zones->num_elements; place++) {
        icaltimezone *zone = icalarray_element_at(zones, place);
        icalcomponent *component = icaltimezone_get_component(zone);
        if (component)
            printf("%s\n%s%c", icaltimezone_get_location(zone), icalcomponent_as_ical_string(component), 0);
    }
    return 0;
}
