// REQUESTs of KDE's KCalendarCore: `./kde < names > kde.objects` (libkf5calendarcore-dev; g++ -fPIC, the include folders KF5/KCalendarCore, KF5, qt5,
// qt5/QtCore, qt5/QtGui, -lKF5CalendarCore -lQt5Core)
#include <KCalendarCore/Event>
#include <KCalendarCore/ICalFormat>
#include <QCoreApplication>
#include <QTimeZone>
#include <iostream>
#include <string>

using namespace KCalendarCore;

static Event::Ptr event(const std::string &kind, const QTimeZone &zone)
{
    Event::Ptr event(new Event);
    const int hour = kind == "moved" ? 11 : 9;
    event->setUid("u");
    event->setOrganizer(Person("Ann", "ann@example.com"));
    event->addAttendee(Attendee("Room", "room1@example.com"));
    event->setDtStart(QDateTime(QDate(2025, 4, 15), QTime(hour, 0), zone));
    event->setDtEnd(QDateTime(QDate(2025, 4, 15), QTime(hour + 1, 0), zone));
    if (kind == "endless")
        event->recurrence()->setWeekly(1);
    if (kind == "moved")
        event->setRecurrenceId(QDateTime(QDate(2025, 4, 15), QTime(9, 0), zone));
    return event;
}

int main(int count, char **words)
{
    QCoreApplication app(count, words);
    ICalFormat format;
    for (std::string name; std::getline(std::cin, name);) {
        const QTimeZone zone(QByteArray::fromStdString(name));
        for (const std::string kind : {"single", "endless", "moved"}) {
            const QString text = format.createScheduleMessage(event(kind, zone), iTIPRequest);
            std::cout << kind << " " << name << "\n" << text.toStdString() << '\0';
        }
    }
}
