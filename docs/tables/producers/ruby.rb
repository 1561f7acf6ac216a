# The VTIMEZONEs of ruby-icalendar: `ruby ruby.rb > ruby.zones` (ruby-icalendar, ruby-tzinfo)
require 'icalendar'
require 'icalendar/tzinfo'

TZInfo::Timezone.all_identifiers.sort.each do |name|
  zone = TZInfo::Timezone.get(name).ical_timezone(DateTime.new(2025, 4, 15, 9))
  print name, "\n", zone.to_ical, "\0"
end
