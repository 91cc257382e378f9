# The sources of what Jekyll lets come out of the sites whose folders stand on standard input, a line each, as JSON: as they are set, and with drafts.
require "jekyll"
require "json"
Jekyll.logger.log_level = :error
STDIN.each_line(chomp: true) do |folder|
  found = [{}, { "show_drafts" => true }].map do |more|
    site = Jekyll::Site.new(Jekyll.configuration({ "source" => folder, "quiet" => true, "disable_disk_cache" => true }.merge(more)))
    site.reset
    site.read
    paths = []
    site.each_site_file { |item| paths << item.relative_path.delete_prefix("/") if item.write? }
    paths.uniq
  end
  puts JSON.generate([folder, *found])
end
