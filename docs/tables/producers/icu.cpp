// The VTIMEZONEs of ICU, as Thunderbird writes them: `c++ icu.cpp -o icu -licui18n -licuuc && ./icu < names > icu.zones` (libicu-dev)
#include <iostream>
#include <string>
#include <unicode/vtzone.h>

int main()
{
    for (std::string name; std::getline(std::cin, name);) {
        UErrorCode error = U_ZERO_ERROR;
        icu::UnicodeString written;
        std::string text;
        icu::VTimeZone *zone = icu::VTimeZone::createVTimeZoneByID(icu::UnicodeString::fromUTF8(name));
        if (zone)
            zone->write(written, error);
        if (zone && U_SUCCESS(error))
            std::cout << name << "\n" << written.toUTF8String(text) << '\0';
        delete zone;
    }
}
