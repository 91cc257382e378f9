# What Jekyll makes of templates over a site: reads lines of JSON, {t, page}, and writes {o}, a text, or {e}, an error.
# usage: ruby oracle.rb SITE OUTPUT
ENV["TZ"] = "Etc/GMT-2"
require "json"
require "jekyll"
Jekyll.logger.log_level = :error
site, output = ARGV.map { |name| File.expand_path(name) }
Dir.chdir(site)
config = Jekyll.configuration("source" => site, "destination" => output, "quiet" => true,
  "timezone" => "Etc/GMT-2",
  "liquid" => {"error_mode" => "strict"}, "permalink" => "date", "disable_disk_cache" => true)
$site = Jekyll::Site.new(config)
$site.reset; $site.read; $site.generate
def page(name)
  $site.pages.find { |p| p.relative_path == name } || $site.posts.docs.find { |p| p.relative_path == name }
end
# As Jekyll itself does it for an item.
strict = { :strict_filters => config["liquid"]["strict_filters"], :strict_variables => config["liquid"]["strict_variables"] }
$n = 0
STDIN.each_line do |line|
  $n += 1
  row = JSON.parse(line)
  item = page(row["page"] || "p.html")
  payload = $site.site_payload
  payload["page"] = item.to_liquid
  (row["payload"] || {}).each { |k, v| payload[k] = v }
  begin
    info = { :registers => { :site => $site, :page => payload["page"] }, **strict }
    text = $site.liquid_renderer.file("row#{$n}.html").parse(row["t"]).render!(payload, info)
    puts JSON.generate({o: text})
  rescue SystemStackError => e
    puts JSON.generate({e: "stack"})
  rescue Exception => e
    puts JSON.generate({e: "#{e.class}: #{e.message}"[0, 300]})
  end
  STDOUT.flush
end
